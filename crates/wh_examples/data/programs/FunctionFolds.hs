-- | Folds whose results are functions.
module FunctionFolds
  ( composeAll
  , foldLeft
  , appendAll
  , reverseFast
  , takeBy
  , zipFold
  , evens
  , runAll
  , Tree (..)
  , foldTree
  , flattenTree
  , depths
  , mapTree
  , sumCont
  , foldNat
  , addition
  , parityOf
  , fibonacci
  ) where

import Nat

composeAll :: [a -> a] -> a -> a
composeAll = foldr (.) id

-- | A fold from the left by one from the right: each member becomes a function of what came before.
foldLeft :: (b -> a -> b) -> b -> [a] -> b
foldLeft f start list = foldr step id list start
  where
    step x k acc = k (f acc x)

-- | Lists as functions that put their members in front.
appendAll :: [[a]] -> [a]
appendAll lists = foldr (\xs k rest -> xs ++ k rest) id lists []

reverseFast :: [a] -> [a]
reverseFast list = foldr (\x k acc -> k (x : acc)) id list []

takeBy :: [a] -> Nat -> [a]
takeBy = foldr step (const [])
  where
    step x k n = case n of
      Zero -> []
      Succ m -> x : k m

zipFold :: [a] -> [b] -> [(a, b)]
zipFold = foldr step (\_ -> [])
  where
    step _ _ [] = []
    step x k (y : ys) = (x, y) : k ys

-- | The members at every second place, the first one included.
evens :: [a] -> [a]
evens list = foldr step (const []) list True
  where
    step x k here
      | here = x : k False
      | otherwise = k True

-- | Runs functions one after the other, and keeps what each gives.
runAll :: [Nat -> Nat] -> Nat -> [Nat]
runAll fs = foldr step (\_ -> []) fs
  where
    step f k n = let m = f n in m : k m

data Tree a = Leaf a | Fork (Tree a) (Tree a)
  deriving (Eq, Show)

foldTree :: (a -> b) -> (b -> b -> b) -> Tree a -> b
foldTree leaf _ (Leaf x) = leaf x
foldTree leaf fork (Fork l r) = fork (foldTree leaf fork l) (foldTree leaf fork r)

flattenTree :: Tree a -> [a]
flattenTree t = foldTree (:) (.) t []

depths :: Tree a -> Tree Nat
depths t = foldTree (\_ d -> Leaf d) (\l r d -> Fork (l (d + 1)) (r (d + 1))) t 0

mapTree :: (a -> b) -> Tree a -> Tree b
mapTree f = foldTree (Leaf . f) Fork

-- | A sum in continuation style.
sumCont :: [Nat] -> (Nat -> Nat) -> Nat
sumCont [] k = k 0
sumCont (x : xs) k = sumCont xs (\s -> k (x + s))

foldNat :: (b -> b) -> b -> Nat -> b
foldNat _ z Zero = z
foldNat s z (Succ n) = s (foldNat s z n)

addition :: Nat -> Nat -> Nat
addition = foldNat (Succ .) id

parityOf :: Nat -> Bool
parityOf = foldNat not True

-- | By a fold that makes a function of the two numbers before.
fibonacci :: Nat -> Nat
fibonacci n = foldNat (\k a b -> k b (a + b)) (\a _ -> a) n 0 1

-- >>> composeAll [(+ 1), (* 2)] (3 :: Nat)
-- 7
-- >>> foldLeft (-) 9 [1, 2, 3 :: Nat]
-- 3
-- >>> appendAll [[1], [2, 3], [4 :: Nat]]
-- [1,2,3,4]
-- >>> reverseFast [1, 2, 3 :: Nat]
-- [3,2,1]
-- >>> takeBy [True, False, True] 2
-- [True,False]
-- >>> zipFold [1, 2 :: Nat] [True, False, True]
-- [(1,True),(2,False)]
-- >>> evens [1, 2, 3, 4, 5 :: Nat]
-- [1,3,5]
-- >>> runAll [(+ 1), (* 2)] 3
-- [4,8]
-- >>> flattenTree (Fork (Leaf 1) (Fork (Leaf 2) (Leaf (3 :: Nat))))
-- [1,2,3]
-- >>> depths (Fork (Leaf True) (Fork (Leaf False) (Leaf True)))
-- Fork (Leaf 1) (Fork (Leaf 2) (Leaf 2))
-- >>> sumCont [1, 2, 3] (* 2)
-- 12
-- >>> addition 2 3
-- 5
-- >>> parityOf 5
-- False
-- >>> fibonacci 6
-- 8
