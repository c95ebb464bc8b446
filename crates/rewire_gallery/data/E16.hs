start :: ReT Bool Bool I ()
start = signal True >>= \x -> refold id const start
