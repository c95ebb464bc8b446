start :: ReT Bool Bool I ()
start = (signal True) >>= \x -> start
