start :: ReT Bool Bool I ()
start = refold id const lamp
lamp :: ReT Bool Bool I ()
lamp = signal True >>= \x -> lamp
