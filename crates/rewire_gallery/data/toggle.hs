-- A light with a button: an input of True turns it on or off, an input of False leaves it.
--
-- It is `switch` once more. Layout stands for braces and semicolons, one function with an argument for two
-- without, and `do` for `>>=` and a lambda.
module Toggle where

import ReWire

data Light = Off | On

start :: ReT Bool Light I ()
start = light Off

light :: Light -> ReT Bool Light I ()
light now = do
  pressed <- signal now
  light (if pressed then other now else now)

other :: Light -> Light
other Off = On
other On = Off
