-- | Loops with several accumulators, kept in tuples.
module Accumulators
  ( minMax
  , partitionBy
  , fibPair
  , fib
  , sumCount
  , unzip2
  , unzip3'
  , splitAt'
  , spanBy
  , runs
  , expand
  , maxSegment
  , divMod'
  , digitSum
  , mapAccum
  , labels
  , stats
  ) where

import Prelude hiding (length)
import Nat

minMax :: [Nat] -> Maybe (Nat, Nat)
minMax [] = Nothing
minMax (x : xs) = Just (foldl widen (x, x) xs)
  where
    widen (low, high) y = (min low y, max high y)

partitionBy :: (a -> Bool) -> [a] -> ([a], [a])
partitionBy p = foldr place ([], [])
  where
    place x (yes, no)
      | p x = (x : yes, no)
      | otherwise = (yes, x : no)

fibPair :: Nat -> (Nat, Nat)
fibPair 0 = (0, 1)
fibPair n = let (a, b) = fibPair (n - 1) in (b, a + b)

fib :: Nat -> Nat
fib n = go n (0, 1)
  where
    go Zero (a, _) = a
    go (Succ k) (a, b) = go k (b, a + b)

sumCount :: [Nat] -> (Nat, Nat)
sumCount = go (0, 0)
  where
    go acc [] = acc
    go (total, n) (x : xs) = go (total + x, n + 1) xs

unzip2 :: [(a, b)] -> ([a], [b])
unzip2 [] = ([], [])
unzip2 ((a, b) : rest) = (a : as, b : bs)
  where
    (as, bs) = unzip2 rest

unzip3' :: [(a, b, c)] -> ([a], [b], [c])
unzip3' = foldr (\(a, b, c) (as, bs, cs) -> (a : as, b : bs, c : cs)) ([], [], [])

splitAt' :: Nat -> [a] -> ([a], [a])
splitAt' 0 xs = ([], xs)
splitAt' _ [] = ([], [])
splitAt' n (x : xs) = case splitAt' (n - 1) xs of
  (front, rest) -> (x : front, rest)

spanBy :: (a -> Bool) -> [a] -> ([a], [a])
spanBy _ [] = ([], [])
spanBy p list@(x : xs)
  | p x = let (front, rest) = spanBy p xs in (x : front, rest)
  | otherwise = ([], list)

-- | Equal members side by side become one with their number.
runs :: Eq a => [a] -> [(a, Nat)]
runs [] = []
runs (x : xs) = go (x, 1) xs
  where
    go run [] = [run]
    go (y, n) (z : zs)
      | y == z = go (y, n + 1) zs
      | otherwise = (y, n) : go (z, 1) zs

expand :: [(a, Nat)] -> [a]
expand [] = []
expand ((_, 0) : rest) = expand rest
expand ((x, Succ n) : rest) = x : expand ((x, n) : rest)

-- | The greatest gain of a stretch of gains and losses, seen in one pass.
maxSegment :: [(Bool, Nat)] -> Nat
maxSegment = snd . foldl step (0, 0)
  where
    step (here, best) (gain, n) = (now, max best now)
      where
        now = if gain then here + n else here - n

divMod' :: Nat -> Nat -> Maybe (Nat, Nat)
divMod' _ 0 = Nothing
divMod' m (Succ k) = Just (go m k 0)
  where
    go 0 left q = (q, k - left)
    go (Succ a) 0 q = go a k (q + 1)
    go (Succ a) (Succ left) q = go a left q

digitSum :: [Nat] -> (Nat, Nat)
digitSum ds = go ds 0 0
  where
    go [] even' odd' = (even', odd')
    go (d : rest) even' odd' = go rest odd' (even' + d)

mapAccum :: (s -> a -> (s, b)) -> s -> [a] -> (s, [b])
mapAccum _ s [] = (s, [])
mapAccum f s (x : xs) =
  let (s1, y) = f s x
      (s2, ys) = mapAccum f s1 xs
   in (s2, y : ys)

labels :: [a] -> [(Nat, a)]
labels list = snd (mapAccum (\n x -> (n + 1, (n, x))) 0 list)

-- | The length, the sum, the least and the greatest member.
stats :: [Nat] -> (Nat, Nat, Nat, Nat)
stats = foldl add (0, 0, 20, 0)
  where
    add (n, total, low, high) x = (n + 1, total + x, min low x, max high x)

-- >>> minMax [3, 1, 2]
-- Just (1,3)
-- >>> partitionBy (> 2) [1, 2, 3, 4 :: Nat]
-- ([3,4],[1,2])
-- >>> map fib [0, 1, 5, 7]
-- [0,1,5,13]
-- >>> fibPair 5
-- (5,8)
-- >>> unzip2 [(1, True), (2 :: Nat, False)]
-- ([1,2],[True,False])
-- >>> splitAt' 2 [1, 2, 3 :: Nat]
-- ([1,2],[3])
-- >>> spanBy (< 3) [1, 2, 3, 1 :: Nat]
-- ([1,2],[3,1])
-- >>> runs [True, True, False]
-- [(True,2),(False,1)]
-- >>> expand [(True, 2), (False, 1)]
-- [True,True,False]
-- >>> maxSegment [(True, 3), (False, 2), (True, 4)]
-- 5
-- >>> divMod' 17 5
-- Just (3,2)
-- >>> labels [True, False]
-- [(0,True),(1,False)]
-- >>> stats [4, 2, 6]
-- (3,12,2,6)
-- >>> digitSum [1, 2, 3, 4]
-- (4,6)
