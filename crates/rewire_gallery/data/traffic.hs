{ data Road = Empty | Car ;
data Light = Red | RedAmber | Green | Amber ;
start :: ReT Road Light I () ;
start = red ;
red :: ReT Road Light I () ;
red = signal Red >>= \x -> case x of { Empty -> stay ; Car -> stay } ;
stay :: ReT Road Light I () ;
stay = signal Red >>= \x -> case x of { Empty -> ready ; Car -> ready } ;
ready :: ReT Road Light I () ;
ready = signal RedAmber >>= \x -> case x of { Empty -> go ; Car -> go } ;
go :: ReT Road Light I () ;
go = signal Green >>= \x -> case x of { Empty -> go ; Car -> slow } ;
slow :: ReT Road Light I () ;
slow = signal Amber >>= \x -> case x of { Empty -> red ; Car -> red } }
