-- A clock of two digits from zero to three: each input of True is a tick, and the tens move on where the ones go from
-- three to zero.
--
-- Both digits are one device, taken twice. `par` runs them side by side, so its input and its output are pairs.
-- `refold` stands around it: `turned` gives what is shown, the tens first, and `carry` makes the inputs of both digits
-- of the tick and of what they showed before it.
module Clock where

import ReWire

data Digit = Zero | One | Two | Three deriving (Eq, Show)

start :: ReT Bool (Digit, Digit) I ()
start = refold turned carry (par (digit Zero) (digit Zero))

turned :: (a, b) -> (b, a)
turned (ones, tens) = (tens, ones)

carry :: (Digit, Digit) -> Bool -> (Bool, Bool)
carry (ones, _) tick = (tick, tick && isLast ones)

digit :: Digit -> ReT Bool Digit I ()
digit now = signal now >>= \tick -> digit (if tick then next now else now)

isLast :: Digit -> Bool
isLast Three = True
isLast _ = False

next :: Digit -> Digit
next Zero = One
next One = Two
next Two = Three
next Three = Zero
