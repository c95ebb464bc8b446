{ data Seen = Waiting | Found ;
start :: ReT Bool Seen I () ;
start = none ;
none :: ReT Bool Seen I () ;
none = signal Waiting >>= \x -> case x of { False -> none ; True -> s1 } ;
s1 :: ReT Bool Seen I () ;
s1 = signal Waiting >>= \x -> case x of { False -> s10 ; True -> s1 } ;
s10 :: ReT Bool Seen I () ;
s10 = signal Waiting >>= \x -> case x of { False -> none ; True -> s101 } ;
s101 :: ReT Bool Seen I () ;
s101 = signal Waiting >>= \x -> case x of { False -> s10 ; True -> s1011 } ;
s1011 :: ReT Bool Seen I () ;
s1011 = signal Found >>= \x -> case x of { False -> s10 ; True -> s1 } }
