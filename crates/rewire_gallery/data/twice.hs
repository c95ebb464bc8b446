-- Each function of the prelude and each operation, once at two types: every use has an instance of its own.
start :: ReT Bool Bool I ()
start = refold (\o -> fst (fst o)) (\o i -> ((i, (i, ())), i)) $
  par (par (loop False) (refold (\o -> (o, ())) (\o i -> fst i) (loop True))) quiet

loop :: Bool -> ReT Bool Bool I ()
loop s = signal s >>= \i -> loop (either not id (choose i s))

quiet :: ReT Bool (Bool, ()) I ()
quiet = signal (True, ()) >>= \x -> signal (x, ()) >> quiet

choose :: Bool -> Bool -> Either Bool Bool
choose True x = Left x
choose False x = Right x

data Two = One | Other

-- the functions
functions :: (Bool, Two) -> (Two, Bool)
functions p = (id (snd p), id (fst p))

constants :: Two -> Bool
constants x = const True (const x ())

flipped :: Bool -> Two -> (Two, Bool)
flipped x y = flip both x (flip second y ())

both :: Two -> Bool -> (Two, Bool)
both x y = (x, y)

second :: () -> Two -> Two
second x y = y

composed :: Bool -> Maybe Two
composed = (Just . named) . (not . id)

named :: Bool -> Two
named True = One
named False = Other

applied :: Bool -> Two
applied x = named $ (not $ (id $ x))

logical :: Bool -> Bool -> Bool
logical x y | x && y = x || y
            | otherwise = not otherwise

curried :: Bool -> Two -> (Two, Bool)
curried x y = (curry snd x y, curry fst x y)

uncurried :: (Two, Bool) -> (Bool, Bool)
uncurried p = (uncurry (flip const) p, uncurry (&&) (True, False))

folded :: Maybe Two -> Either Bool () -> (Bool, Two)
folded m e = (maybe True isOne m, either named (const Other) e)

isOne :: Two -> Bool
isOne x = case x of
  One -> True
  Other -> maybe False not Nothing

-- the operations on state
steps :: StateT Bool (StateT Two I) ()
steps = do
  x <- get
  put (not x)
  when x (lift swapped)
  lift (when (not x) swapped)
  return ()

swapped :: StateT Two I ()
swapped = get >>= \x -> put (if isOne x then Other else One) >> return ()

-- those on devices
stateful :: ReT Bool Bool (StateT Bool (StateT Two I)) ()
stateful = do
  i <- signal True
  lift steps
  stateful

once :: ReT Bool Bool I ()
once = extrude (extrude stateful False) One
