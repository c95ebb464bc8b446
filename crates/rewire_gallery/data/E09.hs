start :: ReT Bool Bool I ()
start = loop True
loop x = signal x >>= \y -> loop y
