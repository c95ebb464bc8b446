start :: ReT Bool Bool I ()
start = signal a >>= \x -> start
  where
    a = not b
    b = not a
