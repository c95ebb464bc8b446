start :: ReT Bool Bool I Bool
start = signal True
