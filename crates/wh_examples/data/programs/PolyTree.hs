-- | A polymorphic search tree that is used for numbers and for pairs.
module PolyTree
  ( Tree (..)
  , Key
  , leaf
  , insert
  , contains
  , build
  , inOrder
  , mapTree
  , foldTree
  , filterTree
  , depth
  , leastOf
  , delete
  , numbers
  , phoneBook
  , lookupName
  , names
  , zipTree
  , isFull
  , paths
  ) where

import Nat

data Tree a = Leaf | Node (Tree a) a (Tree a)
  deriving (Eq, Show)

type Key = (Nat, Bool)

leaf :: a -> Tree a
leaf x = Node Leaf x Leaf

insert :: Ord a => a -> Tree a -> Tree a
insert x Leaf = leaf x
insert x t@(Node l y r) = case compare x y of
  LT -> Node (insert x l) y r
  GT -> Node l y (insert x r)
  EQ -> t

contains :: Ord a => a -> Tree a -> Bool
contains _ Leaf = False
contains x (Node l y r)
  | x == y = True
  | x < y = contains x l
  | otherwise = contains x r

build :: Ord a => [a] -> Tree a
build = foldl (flip insert) Leaf

inOrder :: Tree a -> [a]
inOrder = foldTree [] (\l x r -> l ++ [x] ++ r)

mapTree :: (a -> b) -> Tree a -> Tree b
mapTree f = go
  where
    go Leaf = Leaf
    go (Node l x r) = Node (go l) (f x) (go r)

foldTree :: b -> (b -> a -> b -> b) -> Tree a -> b
foldTree z _ Leaf = z
foldTree z f (Node l x r) = f (foldTree z f l) x (foldTree z f r)

filterTree :: Ord a => (a -> Bool) -> Tree a -> Tree a
filterTree p = build . filter p . inOrder

depth :: Tree a -> Nat
depth = foldTree 0 (\l _ r -> 1 + max l r)

leastOf :: Tree a -> Maybe a
leastOf Leaf = Nothing
leastOf (Node Leaf x _) = Just x
leastOf (Node l _ _) = leastOf l

delete :: Ord a => a -> Tree a -> Tree a
delete _ Leaf = Leaf
delete x (Node l y r)
  | x < y = Node (delete x l) y r
  | x > y = Node l y (delete x r)
  | otherwise = join l r
  where
    join Leaf t = t
    join t Leaf = t
    join t u = case leastOf u of
      Nothing -> t
      Just z -> Node t z (dropLeast u)
    dropLeast Leaf = Leaf
    dropLeast (Node Leaf _ u) = u
    dropLeast (Node t z u) = Node (dropLeast t) z u

numbers :: Tree Nat
numbers = build [4, 2, 6, 1, 3]

phoneBook :: Tree Key
phoneBook = build [(3, True), (1, False), (2, True)]

lookupName :: Nat -> Tree Key -> Maybe Bool
lookupName _ Leaf = Nothing
lookupName n (Node l (m, known) r)
  | n == m = Just known
  | n < m = lookupName n l
  | otherwise = lookupName n r

names :: Tree Key -> Tree Nat
names = mapTree fst

zipTree :: Tree a -> Tree b -> Tree (a, b)
zipTree (Node l x r) (Node l' y r') = Node (zipTree l l') (x, y) (zipTree r r')
zipTree _ _ = Leaf

-- | Whether all ways down are equally long.
isFull :: Tree a -> Bool
isFull t = check t /= Nothing
  where
    check Leaf = Just (0 :: Nat)
    check (Node l _ r) = case (check l, check r) of
      (Just m, Just n) | m == n -> Just (m + 1)
      _ -> Nothing

paths :: Tree a -> [[a]]
paths Leaf = [[]]
paths (Node l x r) = map (x :) (paths l ++ paths r)

-- >>> inOrder numbers
-- [1,2,3,4,6]
-- >>> inOrder phoneBook
-- [(1,False),(2,True),(3,True)]
-- >>> contains 3 numbers
-- True
-- >>> contains (2, False) phoneBook
-- False
-- >>> lookupName 1 phoneBook
-- Just False
-- >>> names phoneBook
-- Node (Node Leaf 1 (Node Leaf 2 Leaf)) 3 Leaf
-- >>> delete 2 numbers
-- Node (Node (Node Leaf 1 Leaf) 3 Leaf) 4 (Node Leaf 6 Leaf)
-- >>> depth numbers
-- 3
-- >>> leastOf phoneBook
-- Just (1,False)
-- >>> isFull (build [2, 1, 3 :: Nat])
-- True
-- >>> filterTree (> 2) numbers
-- Node Leaf 3 (Node Leaf 4 (Node Leaf 6 Leaf))
-- >>> zipTree (leaf True) (build [1, 2 :: Nat])
-- Node Leaf (True,1) Leaf
-- >>> paths (build [2, 1, 3 :: Nat])
-- [[2,1],[2,1],[2,3],[2,3]]
