{ start :: ReT Bool Bool I () ;
start = low ;
low :: ReT Bool Bool I () ;
low = signal False >>= \x -> case x of { False -> low ; True -> rise } ;
rise :: ReT Bool Bool I () ;
rise = signal True >>= \x -> case x of { False -> low ; True -> high } ;
high :: ReT Bool Bool I () ;
high = signal False >>= \x -> case x of { False -> low ; True -> high } }
