-- | Game trees of a game with matches: who takes the last one wins. Values by minimax, with and without cuts.
module GameTree
  ( Rose (..)
  , moves
  , grow
  , prune
  , mapRose
  , leaves
  , maximise
  , minimise
  , value
  , alpha
  , best
  , winning
  , depth
  , countNodes
  , chooseFrom
  ) where

import Prelude hiding (length, take)
import Nat

data Rose a = Rose a [Rose a]
  deriving (Eq, Show)

-- | What may be left after a move: one, two or three matches are taken.
moves :: Nat -> [Nat]
moves n = filter (< n) [n - 1, n - 2, n - 3]

-- | The game tree, as deep as the first argument says.
grow :: Nat -> (a -> [a]) -> a -> Rose a
grow Zero _ x = Rose x []
grow (Succ d) next x = Rose x (map (grow d next) (next x))

prune :: Nat -> Rose a -> Rose a
prune 0 (Rose x _) = Rose x []
prune n (Rose x ts) = Rose x (map (prune (n - 1)) ts)

mapRose :: (a -> b) -> Rose a -> Rose b
mapRose f (Rose x ts) = Rose (f x) (map (mapRose f) ts)

leaves :: Rose a -> [a]
leaves (Rose x []) = [x]
leaves (Rose _ ts) = concatMap leaves ts

maximumOf :: [Nat] -> Nat
maximumOf = foldr max 0

minimumOf :: [Nat] -> Nat
minimumOf [] = 0
minimumOf (x : xs) = foldr min x xs

-- | The value for the one who is to move, and the value where the other one is.
maximise, minimise :: Rose Nat -> Nat
maximise (Rose x []) = x
maximise (Rose _ ts) = maximumOf (map minimise ts)
minimise (Rose x []) = x
minimise (Rose _ ts) = minimumOf (map maximise ts)

value :: Nat -> Nat -> Nat
value d n = maximise (mapRose rate (grow d moves n))
  where
    rate k = if k == 0 then 2 else 1

-- | As 'maximise', but what can't change the value is not looked at; the numbers are the bounds.
alpha :: Nat -> Nat -> Rose Nat -> Nat
alpha _ _ (Rose x []) = x
alpha a b (Rose _ ts) = cut a ts
  where
    cut low [] = low
    cut low (u : us)
      | low >= b = low
      | otherwise = cut (max low (20 - alpha (20 - b) (20 - low) u)) us

best :: Ord b => (a -> b) -> [a] -> Maybe a
best _ [] = Nothing
best f (x : xs) = Just (go x xs)
  where
    go y [] = y
    go y (z : zs)
      | f z > f y = go z zs
      | otherwise = go y zs

-- | Whether the one who is to move can win, found without a tree.
winning :: Nat -> Bool
winning 0 = False
winning 1 = True
winning 2 = True
winning 3 = True
winning (Succ (Succ (Succ (Succ n)))) = winning n

depth :: Rose a -> Nat
depth (Rose _ ts) = 1 + maximumOf (map depth ts)

countNodes :: Rose a -> Nat
countNodes (Rose _ ts) = 1 + total ts
  where
    total [] = 0
    total (u : us) = countNodes u + total us

chooseFrom :: Nat -> Maybe Nat
chooseFrom n = best (\k -> if winning k then 0 else 1 :: Nat) (moves n)

-- >>> grow 2 moves 2
-- Rose 2 [Rose 1 [Rose 0 [],Rose 0 [],Rose 0 []],Rose 0 [],Rose 0 []]
-- >>> leaves (grow 2 moves 2)
-- [0,0,0,0,0]
-- >>> countNodes (grow 3 moves 3)
-- 13
-- >>> depth (prune 1 (grow 3 moves 3))
-- 2
-- >>> map winning [0, 3, 4, 5, 8]
-- [False,True,False,True,False]
-- >>> chooseFrom 5
-- Just 4
-- >>> maximise (Rose 0 [Rose 3 [], Rose 0 [Rose 5 [], Rose 4 []]])
-- 4
-- >>> alpha 0 20 (Rose 0 [Rose 13 [], Rose 12 []])
-- 8
