data Way = ToLeft | ToRight
start :: ReT Bool Way I ()
start = signal ToLeft >>= \x -> start
