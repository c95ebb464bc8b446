module Cpu where
import ReWire
data W8 = W8 Bool Bool Bool Bool Bool Bool Bool Bool deriving (Eq, Show)
data Op = Nop | Load | And | Or | Xor | Not | Add | Inc
        | Shl | Shr | Rol | Ror | SetC | ClrC | Swap | Clear
data In = In Op W8
data Out = Out W8 Bool
data Cpu = Cpu W8 Bool
start :: ReT In Out I ()
start = extrude cpu (Cpu zero False)
cpu :: ReT In Out (StateT Cpu I) ()
cpu = do
  Cpu a c <- lift get
  i <- signal (Out a c)
  lift (put (step i a c))
  cpu
zero, ones :: W8
zero = W8 False False False False False False False False
ones = W8 True True True True True True True True
xor :: Bool -> Bool -> Bool
xor True b = not b
xor False b = b
zipW :: (Bool -> Bool -> Bool) -> W8 -> W8 -> W8
zipW f (W8 a b c d e g h i) (W8 j k l m n o p q) =
  W8 (f a j) (f b k) (f c l) (f d m) (f e n) (f g o) (f h p) (f i q)
full :: Bool -> Bool -> Bool -> (Bool, Bool)
full a b c = (xor a (xor b c), a && b || c && xor a b)
add8 :: W8 -> W8 -> Bool -> Cpu
add8 (W8 a7 a6 a5 a4 a3 a2 a1 a0) (W8 b7 b6 b5 b4 b3 b2 b1 b0) c0 =
  let (s0, c1) = full a0 b0 c0
      (s1, c2) = full a1 b1 c1
      (s2, c3) = full a2 b2 c2
      (s3, c4) = full a3 b3 c3
      (s4, c5) = full a4 b4 c4
      (s5, c6) = full a5 b5 c5
      (s6, c7) = full a6 b6 c6
      (s7, c8) = full a7 b7 c7
  in Cpu (W8 s7 s6 s5 s4 s3 s2 s1 s0) c8
step :: In -> W8 -> Bool -> Cpu
step (In Nop _) a c = Cpu a c
step (In Load b) _ c = Cpu b c
step (In And b) a c = Cpu (zipW (&&) a b) c
step (In Or b) a c = Cpu (zipW (||) a b) c
step (In Xor b) a c = Cpu (zipW xor a b) c
step (In Not _) a c = Cpu (zipW xor a ones) c
step (In Add b) a _ = add8 a b False
step (In Inc _) a _ = add8 a zero True
step (In Shl _) (W8 a b c d e f g h) _ = Cpu (W8 b c d e f g h False) a
step (In Shr _) (W8 a b c d e f g h) _ = Cpu (W8 False a b c d e f g) h
step (In Rol _) (W8 a b c d e f g h) k = Cpu (W8 b c d e f g h k) a
step (In Ror _) (W8 a b c d e f g h) k = Cpu (W8 k a b c d e f g) h
step (In SetC _) a _ = Cpu a True
step (In ClrC _) a _ = Cpu a False
step (In Swap _) (W8 a b c d e f g h) k = Cpu (W8 e f g h a b c d) k
step (In Clear _) _ _ = Cpu zero False
