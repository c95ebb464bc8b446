{ data L = Off | On ;
start :: ReT Bool L I () ;
start = off ;
off :: ReT Bool L I () ;
off = signal Off >>= \x -> case x of { False -> off ; True -> on } ;
on :: ReT Bool L I () ;
on = signal On >>= \x -> case x of { False -> on ; True -> off } }
