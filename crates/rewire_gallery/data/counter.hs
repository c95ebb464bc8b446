{ data N = Zero | One | Two | Three ;
start :: ReT Bool N I () ;
start = zero ;
zero :: ReT Bool N I () ;
zero = signal Zero >>= \x -> case x of { False -> zero ; True -> one } ;
one :: ReT Bool N I () ;
one = signal One >>= \x -> case x of { False -> one ; True -> two } ;
two :: ReT Bool N I () ;
two = signal Two >>= \x -> case x of { False -> two ; True -> three } ;
three :: ReT Bool N I () ;
three = signal Three >>= \x -> case x of { False -> three ; True -> zero } }
