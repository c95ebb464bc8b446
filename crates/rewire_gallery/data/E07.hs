data Way = Left | Right
start :: ReT Bool Way I ()
start = signal Left >>= \x -> start
