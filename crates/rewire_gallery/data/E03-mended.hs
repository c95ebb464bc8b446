{- A lamp that is always on. -}
start :: ReT Bool Bool I ()
start = signal True >>= \x -> start
