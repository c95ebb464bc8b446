import Data.Bits
start :: ReT Bool Bool I ()
start = signal True >>= \x -> start
