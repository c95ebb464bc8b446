start :: ReT Bool Bool I ()
start = signal () >>= \x -> start
