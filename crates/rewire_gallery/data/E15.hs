main :: ReT Bool Bool I ()
main = signal True >>= \x -> main
