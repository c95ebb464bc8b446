data List = End | One Bool | Two Bool Bool
start :: ReT Bool List I ()
start = signal End >>= \x -> start
