data List = End | Item Bool List
start :: ReT Bool List I ()
start = signal End >>= \x -> start
