start :: ReT Bool Bool I ()
start = loop True
loop :: Bool -> ReT Bool Bool I ()
loop x | x = signal x >>= \y -> loop y
