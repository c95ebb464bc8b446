{ start :: ReT Bool Bool I () ;
start = low ;
low :: ReT Bool Bool I () ;
low = signal False >>= \x -> case x of { False -> low } }
