start :: ReT Bool Bool ()
start = signal True >>= \x -> start
