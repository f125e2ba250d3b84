-- | Endless lists, of which a lazy program takes as much as it needs, and loops that are bounded.
module Streams
  ( from
  , repeat'
  , iterate'
  , cycle'
  , takeN
  , takeUntil
  , squares
  , fibs
  , interleave
  , everySecond
  , prefix
  , zipS
  , lookAt
  , searchFrom
  , naturals
  , evens
  , unfold
  , boundedIterate
  , counter
  , fixedPoint
  ) where

import Nat

from :: Nat -> [Nat]
from n = n : from (n + 1)

repeat' :: a -> [a]
repeat' x = x : repeat' x

iterate' :: (a -> a) -> a -> [a]
iterate' f x = x : iterate' f (f x)

cycle' :: [a] -> [a]
cycle' xs = xs ++ cycle' xs

takeN :: Nat -> [a] -> [a]
takeN Zero _ = []
takeN _ [] = []
takeN (Succ n) (x : xs) = x : takeN n xs

takeUntil :: (a -> Bool) -> [a] -> [a]
takeUntil _ [] = []
takeUntil p (x : xs)
  | p x = [x]
  | otherwise = x : takeUntil p xs

squares :: Nat -> [Nat]
squares n = takeN n (map (\x -> x * x) (from 0))

fibs :: Nat -> Nat -> [Nat]
fibs a b = a : fibs b (a + b)

interleave :: [a] -> [a] -> [a]
interleave [] ys = ys
interleave (x : xs) ys = x : interleave ys xs

everySecond :: [a] -> [a]
everySecond (x : _ : xs) = x : everySecond xs
everySecond xs = xs

prefix :: Nat -> [Nat]
prefix n = takeN n naturals

zipS :: (a -> b -> c) -> [a] -> [b] -> [c]
zipS f (x : xs) (y : ys) = f x y : zipS f xs ys
zipS _ _ _ = []

lookAt :: Nat -> [a] -> Maybe a
lookAt _ [] = Nothing
lookAt Zero (x : _) = Just x
lookAt (Succ n) (_ : xs) = lookAt n xs

-- | The first number from the given one on that has the property; it runs for ever where there is none.
searchFrom :: (Nat -> Bool) -> Nat -> Nat
searchFrom p n
  | p n = n
  | otherwise = searchFrom p (n + 1)

naturals :: [Nat]
naturals = from 0

evens :: [Nat]
evens = filter isEven naturals
  where
    isEven Zero = True
    isEven (Succ n) = not (isEven n)

unfold :: (s -> Maybe (a, s)) -> s -> [a]
unfold step s = case step s of
  Nothing -> []
  Just (x, s') -> x : unfold step s'

-- | As many members of the list that 'iterate'' makes as the number says.
boundedIterate :: Nat -> (a -> a) -> a -> [a]
boundedIterate 0 _ _ = []
boundedIterate n f x = x : boundedIterate (n - 1) f (f x)

counter :: Nat -> [Nat]
counter n = unfold (\k -> if k == 0 then Nothing else Just (k, k - 1)) n

-- | Applies a function until nothing changes, but not more often than the number says.
fixedPoint :: Eq a => Nat -> (a -> a) -> a -> Maybe a
fixedPoint 0 _ _ = Nothing
fixedPoint (Succ n) f x
  | y == x = Just x
  | otherwise = fixedPoint n f y
  where
    y = f x

-- >>> takeN 3 (from 2)
-- [2,3,4]
-- >>> squares 4
-- [0,1,4,9]
-- >>> takeN 4 (cycle' [True, False])
-- [True,False,True,False]
-- >>> takeN 5 (fibs 0 1)
-- [0,1,1,2,3]
-- >>> takeN 4 (interleave (repeat' 0) (from 5))
-- [0,5,0,6]
-- >>> everySecond [1, 2, 3, 4, 5 :: Nat]
-- [1,3,5]
-- >>> prefix 3
-- [0,1,2]
-- >>> lookAt 3 (iterate' (* 2) (1 :: Nat))
-- Just 8
-- >>> searchFrom (> 4) 2
-- 5
-- >>> boundedIterate 3 (+ 2) (0 :: Nat)
-- [0,2,4]
-- >>> counter 3
-- [3,2,1]
-- >>> fixedPoint 9 (\n -> max 3 (n - 1)) (6 :: Nat)
-- Just 3
