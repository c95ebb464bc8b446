start :: ReT Bool Bool I ()
start = signal (both True False) >>= \x -> start
both :: Bool -> Bool -> Bool
both True x = x
both False = const False
