start :: ReT Bool Bool I ()
start = signal True >>= \x -> signal x >>= \y -> start
