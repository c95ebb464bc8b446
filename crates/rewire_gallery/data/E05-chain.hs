start :: ReT Bool Bool I ()
start = signal (not . not `id` True) >>= \x -> start
