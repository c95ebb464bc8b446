start :: ReT Bool Bool I ()
start = signal x >>= \x -> start
