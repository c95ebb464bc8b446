-- A heater that keeps a room between two levels: it goes on where it is cold, off where it is hot, and stays as it
-- is between them.
--
-- `next` is local, so that it sees `on`. Its guards are tried from top to bottom, and `otherwise` makes them cover.
-- The `where` stands to the left of the statements of the `do`, since at their column it would begin a statement.
module Heater where

import ReWire

data Level = Cold | Cool | Warm | Hot

start :: ReT Level Bool I ()
start = heat False

heat :: Bool -> ReT Level Bool I ()
heat on = do
  level <- signal on
  heat (next level)
 where
  next :: Level -> Bool
  next level
    | isCold level = True
    | isHot level = False
    | otherwise = on

isCold, isHot :: Level -> Bool
isCold Cold = True
isCold _ = False
isHot Hot = True
isHot _ = False
