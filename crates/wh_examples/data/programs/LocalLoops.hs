-- | Local functions that call themselves and use variables of the functions around them.
module LocalLoops
  ( count
  , addAll
  , multiples
  , elemIndex
  , chunks
  , separate
  , applyTimes
  , findFirst
  , prefixes
  , countdown
  , zipWithIndex
  , isPrefixOf
  , isInfixOf
  , rotate
  , padTo
  ) where

import Prelude hiding (length, take, drop)
import Nat

-- | How often a member stands in a list.
count :: Eq a => a -> [a] -> Nat
count x = go 0
  where
    go n [] = n
    go n (y : ys)
      | x == y = go (n + 1) ys
      | otherwise = go n ys

addAll :: Nat -> [Nat] -> [Nat]
addAll k list = go list
  where
    go [] = []
    go (x : xs) = (x + k) : go xs

-- | The multiples of a number up to a bound.
multiples :: Nat -> Nat -> [Nat]
multiples step bound = go bound 0
  where
    go fuel m = case fuel of
      Zero -> [m]
      Succ fuel'
        | m <= bound -> m : go fuel' (m + step)
        | otherwise -> []

elemIndex :: Eq a => a -> [a] -> Maybe Nat
elemIndex x list =
  let search _ [] = Nothing
      search n (y : ys) = if x == y then Just n else search (n + 1) ys
   in search 0 list

-- | Pieces of one length; the last one may be shorter.
chunks :: Nat -> [a] -> [[a]]
chunks n list = go list list
  where
    go [] _ = []
    go _ [] = []
    go (_ : fuel) xs = take size xs : go fuel (drop size xs)
    size = max 1 n

-- | Parts a list at each member that has the property, which is left out.
separate :: (a -> Bool) -> [a] -> [[a]]
separate p = go []
  where
    go word [] = [reverse word]
    go word (x : xs)
      | p x = reverse word : go [] xs
      | otherwise = go (x : word) xs

applyTimes :: Nat -> (a -> a) -> a -> a
applyTimes n f = loop n
  where
    loop Zero x = x
    loop (Succ k) x = loop k (f x)

findFirst :: (a -> Maybe b) -> b -> [a] -> b
findFirst f def = go
  where
    go [] = def
    go (x : xs) = case f x of
      Nothing -> go xs
      Just y -> y

prefixes :: [a] -> [[a]]
prefixes list = go list []
  where
    go [] acc = [reverse acc]
    go (x : xs) acc = reverse acc : go xs (x : acc)

countdown :: Nat -> Nat -> [Nat]
countdown from step = go from
  where
    stride = step + 1
    go n
      | n < stride = [n]
      | otherwise = n : go (n - stride)

zipWithIndex :: (Nat -> a -> b) -> [a] -> [b]
zipWithIndex f = go 0
  where
    go _ [] = []
    go i (x : xs) = f i x : go (i + 1) xs

isPrefixOf :: Eq a => [a] -> [a] -> Bool
isPrefixOf [] _ = True
isPrefixOf _ [] = False
isPrefixOf (x : xs) (y : ys) = x == y && isPrefixOf xs ys

isInfixOf :: Eq a => [a] -> [a] -> Bool
isInfixOf pattern = go
  where
    go text
      | isPrefixOf pattern text = True
    go [] = False
    go (_ : rest) = go rest

rotate :: Nat -> [a] -> [a]
rotate n list = turn n list
  where
    turn Zero xs = xs
    turn _ [] = []
    turn (Succ k) (x : xs) = turn k (xs ++ [x])

padTo :: Nat -> a -> [a] -> [a]
padTo width x = fill width
  where
    fill (Succ k) (y : ys) = y : fill k ys
    fill (Succ k) [] = x : fill k []
    fill Zero ys = ys

-- >>> count True [True, False, True]
-- 2
-- >>> addAll 2 [1, 2]
-- [3,4]
-- >>> multiples 3 7
-- [0,3,6]
-- >>> elemIndex 4 [2, 4, 6 :: Nat]
-- Just 1
-- >>> chunks 2 [1, 2, 3, 4, 5 :: Nat]
-- [[1,2],[3,4],[5]]
-- >>> separate (== 0) [1, 0, 2, 3, 0 :: Nat]
-- [[1],[2,3],[]]
-- >>> applyTimes 3 (* 2) (1 :: Nat)
-- 8
-- >>> prefixes [True, False]
-- [[],[True],[True,False]]
-- >>> countdown 7 1
-- [7,5,3,1]
-- >>> zipWithIndex (+) [5, 5, 5 :: Nat]
-- [5,6,7]
-- >>> isInfixOf [2, 3] [1, 2, 3, 4 :: Nat]
-- True
-- >>> rotate 2 [1, 2, 3 :: Nat]
-- [3,1,2]
-- >>> padTo 3 False [True]
-- [True,False,False]
