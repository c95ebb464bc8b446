{ start :: ReT Bool Bool I () ;
start = down ;
down :: ReT Bool Bool I () ;
down = signal False >>= \x -> case x of { False -> down ; True -> down1 } ;
down1 :: ReT Bool Bool I () ;
down1 = signal False >>= \x -> case x of { False -> down ; True -> down2 } ;
down2 :: ReT Bool Bool I () ;
down2 = signal False >>= \x -> case x of { False -> down ; True -> up } ;
up :: ReT Bool Bool I () ;
up = signal True >>= \x -> case x of { False -> up1 ; True -> up } ;
up1 :: ReT Bool Bool I () ;
up1 = signal True >>= \x -> case x of { False -> up2 ; True -> up } ;
up2 :: ReT Bool Bool I () ;
up2 = signal True >>= \x -> case x of { False -> down ; True -> up } }
