{ data Ask = Neither | First | Second | Both ;
data Grant = Nobody | ToFirst | ToSecond ;
start :: ReT Ask Grant I () ;
start = free1 ;
free1 :: ReT Ask Grant I () ;
free1 = signal Nobody >>= \a -> case a of { Neither -> free1 ; First -> first ; Second -> second ; Both -> first } ;
free2 :: ReT Ask Grant I () ;
free2 = signal Nobody >>= \a -> case a of { Neither -> free2 ; First -> first ; Second -> second ; Both -> second } ;
first :: ReT Ask Grant I () ;
first = signal ToFirst >>= \a -> case a of { Neither -> free2 ; First -> first ; Second -> second ; Both -> second } ;
second :: ReT Ask Grant I () ;
second = signal ToSecond >>= \a -> case a of { Neither -> free1 ; First -> first ; Second -> second ; Both -> first } }
