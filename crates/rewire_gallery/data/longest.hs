-- The longest run of True so far, up to three. It shows that number from each edge on.
--
-- The device has two layers of state. The inner `extrude` adds the one that `lift get` reaches, the run that is going
-- on; the outer one adds the one behind it, the longest run. Both start at zero. What changes at an edge is in the
-- states, and `watch` has no argument.
module Longest where

import ReWire

data N = Zero | One | Two | Three

start :: ReT Bool N I ()
start = extrude (extrude watch Zero) Zero

watch :: ReT Bool N (StateT N (StateT N I)) ()
watch = do
  best <- lift (lift get)
  bit <- signal best
  run <- lift get
  let now = if bit then next run else Zero
  lift (put now)
  when (now `above` best) $ lift (lift (put now))
  watch

next :: N -> N
next Zero = One
next One = Two
next _ = Three

above :: N -> N -> Bool
above Zero _ = False
above One Zero = True
above Two Zero = True
above Two One = True
above Three Three = False
above Three _ = True
above _ _ = False
