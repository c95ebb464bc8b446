start :: ReT Bool Bool I ()
start = do
  signal lit
  start
 where
  lit = True
