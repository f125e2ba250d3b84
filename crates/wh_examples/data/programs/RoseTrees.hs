-- | Trees with any number of branches, walked by way of the functions on lists.
module RoseTrees
  ( Rose (..)
  , leafOf
  , root
  , mapRose
  , foldRose
  , size
  , height
  , preorder
  , postorder
  , levelsOf
  , filterRose
  , anyRose
  , paths
  , graft
  , Dir (..)
  , total
  , files
  , findDir
  , spanningDepth
  , isBinary
  , annotate
  , same
  ) where

import Prelude hiding (length)
import Nat

data Rose a = Rose a [Rose a]
  deriving (Show)

leafOf :: a -> Rose a
leafOf x = Rose x []

root :: Rose a -> a
root (Rose x _) = x

mapRose :: (a -> b) -> Rose a -> Rose b
mapRose f (Rose x ts) = Rose (f x) (map (mapRose f) ts)

foldRose :: (a -> [b] -> b) -> Rose a -> b
foldRose f (Rose x ts) = f x (map (foldRose f) ts)

sum' :: [Nat] -> Nat
sum' = foldr (+) 0

size :: Rose a -> Nat
size = foldRose (\_ ns -> 1 + sum' ns)

height :: Rose a -> Nat
height (Rose _ ts) = 1 + foldr (\t h -> max (height t) h) 0 ts

preorder :: Rose a -> [a]
preorder (Rose x ts) = x : concatMap preorder ts

postorder :: Rose a -> [a]
postorder (Rose x ts) = concat (map postorder ts) ++ [x]

-- | The members, level by level.
levelsOf :: Rose a -> [[a]]
levelsOf t = go (height t) [t]
  where
    go 0 _ = []
    go _ [] = []
    go n ts = map root ts : go (n - 1) (concatMap below ts)
    below (Rose _ us) = us

-- | Cuts off what has not the property, with all that is below.
filterRose :: (a -> Bool) -> Rose a -> Maybe (Rose a)
filterRose p (Rose x ts)
  | p x = Just (Rose x (kept ts))
  | otherwise = Nothing
  where
    kept [] = []
    kept (u : us) = case filterRose p u of
      Nothing -> kept us
      Just v -> v : kept us

anyRose :: (a -> Bool) -> Rose a -> Bool
anyRose p (Rose x ts) = p x || any (anyRose p) ts

-- | The ways from the root to the leaves.
paths :: Rose a -> [[a]]
paths (Rose x []) = [[x]]
paths (Rose x ts) = map (x :) (concatMap paths ts)

-- | Puts trees below each leaf.
graft :: (a -> [Rose a]) -> Rose a -> Rose a
graft f (Rose x []) = Rose x (f x)
graft f (Rose x ts) = Rose x (map (graft f) ts)

-- | A folder has a name and entries, a file a name and a size.
data Dir = File Nat Nat | Dir Nat [Dir]
  deriving (Eq, Show)

total :: Dir -> Nat
total (File _ n) = n
total (Dir _ ds) = sum' (map total ds)

files :: Dir -> [Nat]
files (File name _) = [name]
files (Dir _ ds) = concatMap files ds

-- | The first folder of that name, and the first way to it.
findDir :: Nat -> Dir -> Maybe [Nat]
findDir _ (File _ _) = Nothing
findDir name (Dir here ds)
  | name == here = Just [here]
  | otherwise = case search ds of
      Nothing -> Nothing
      Just way -> Just (here : way)
  where
    search [] = Nothing
    search (e : es) = case findDir name e of
      Nothing -> search es
      found -> found

spanningDepth :: Rose Nat -> Nat
spanningDepth (Rose w []) = w
spanningDepth (Rose w ts) = w + foldr (max . spanningDepth) 0 ts

isBinary :: Rose a -> Bool
isBinary (Rose _ ts) = length ts <= 2 && all isBinary ts

-- | Each member with the size of the tree at it.
annotate :: Rose a -> Rose (a, Nat)
annotate (Rose x ts) = Rose (x, 1 + sum' (map (snd . root) us)) us
  where
    us = map annotate ts

same :: Eq a => Rose a -> Rose a -> Bool
same (Rose x ts) (Rose y us) = x == y && length ts == length us && and (zipWith same ts us)

-- >>> size (Rose 1 [Rose 2 [], Rose (3 :: Nat) [Rose 4 []]])
-- 4
-- >>> preorder (Rose 1 [Rose 2 [], Rose (3 :: Nat) [Rose 4 []]])
-- [1,2,3,4]
-- >>> postorder (Rose True [Rose False []])
-- [False,True]
-- >>> levelsOf (Rose 1 [Rose 2 [], Rose (3 :: Nat) [Rose 4 []]])
-- [[1],[2,3],[4]]
-- >>> filterRose (> 1) (Rose 2 [Rose 1 [], Rose (3 :: Nat) []])
-- Just (Rose 2 [Rose 3 []])
-- >>> paths (Rose 1 [Rose 2 [], Rose (3 :: Nat) []])
-- [[1,2],[1,3]]
-- >>> total (Dir 0 [File 1 3, Dir 2 [File 3 4]])
-- 7
-- >>> findDir 2 (Dir 0 [File 1 3, Dir 2 []])
-- Just [0,2]
-- >>> annotate (Rose True [Rose False []])
-- Rose (True,2) [Rose (False,1) []]
-- >>> same (Rose 1 [Rose 2 []]) (Rose 1 [Rose (2 :: Nat) []])
-- True
-- >>> mapRose (+ 1) (Rose 1 [Rose (2 :: Nat) []])
-- Rose 2 [Rose 3 []]
