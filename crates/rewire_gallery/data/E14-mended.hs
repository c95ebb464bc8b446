start :: ReT Bool Bool I ()
start = signal True >>= \x -> case x of
  True -> start
  False -> start
