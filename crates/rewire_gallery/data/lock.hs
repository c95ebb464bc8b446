{ data Key = Idle | A | B | C ;
data Bolt = Shut | Open | Alarm ;
start :: ReT Key Bolt I () ;
start = shut ;
shut :: ReT Key Bolt I () ;
shut = signal Shut >>= \k -> case k of { Idle -> shut ; A -> one ; B -> alarm ; C -> alarm } ;
one :: ReT Key Bolt I () ;
one = signal Shut >>= \k -> case k of { Idle -> one ; A -> alarm ; B -> alarm ; C -> two } ;
two :: ReT Key Bolt I () ;
two = signal Shut >>= \k -> case k of { Idle -> two ; A -> alarm ; B -> open ; C -> alarm } ;
open :: ReT Key Bolt I () ;
open = signal Open >>= \k -> case k of { Idle -> open ; A -> shut ; B -> shut ; C -> shut } ;
alarm :: ReT Key Bolt I () ;
alarm = signal Alarm >>= \k -> case k of { Idle -> alarm ; A -> alarm ; B -> alarm ; C -> alarm } }
