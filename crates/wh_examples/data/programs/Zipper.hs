-- | Zippers: a list and a tree with a place in it, at which they are looked at and changed.
module Zipper
  ( ListZip (..)
  , enter
  , leave
  , forward
  , back
  , position
  , toEnd
  , modify
  , insertHere
  , Tree (..)
  , Crumb (..)
  , TreeZip
  , goLeft
  , goRight
  , goUp
  , top
  , attach
  , walk
  , leftmost
  , replaceAt
  , mapTree
  , toList
  ) where

import Nat

-- | The members before the place in reverse, the one at it, and those behind.
data ListZip a = ListZip [a] a [a]
  deriving (Eq, Show)

enter :: [a] -> Maybe (ListZip a)
enter [] = Nothing
enter (x : xs) = Just (ListZip [] x xs)

leave :: ListZip a -> [a]
leave (ListZip before x behind) = foldl (flip (:)) (x : behind) before

forward :: ListZip a -> Maybe (ListZip a)
forward (ListZip _ _ []) = Nothing
forward (ListZip before x (y : ys)) = Just (ListZip (x : before) y ys)

back :: ListZip a -> Maybe (ListZip a)
back (ListZip [] _ _) = Nothing
back (ListZip (y : ys) x behind) = Just (ListZip ys y (x : behind))

-- | How many members stand before the place.
position :: ListZip a -> Nat
position (ListZip before _ _) = foldr (\_ n -> n + 1) 0 before

toEnd :: ListZip a -> ListZip a
toEnd z = case forward z of
  Nothing -> z
  Just z' -> toEnd z'

modify :: (a -> a) -> ListZip a -> ListZip a
modify f (ListZip before x behind) = ListZip before (f x) behind

insertHere :: a -> ListZip a -> ListZip a
insertHere y (ListZip before x behind) = ListZip before y (x : behind)

data Tree a = Leaf | Node (Tree a) a (Tree a)
  deriving (Eq, Show)

-- | Which way was taken, with what was left beside it.
data Crumb a = WentLeft a (Tree a) | WentRight (Tree a) a
  deriving (Eq, Show)

type TreeZip a = (Tree a, [Crumb a])

goLeft :: TreeZip a -> Maybe (TreeZip a)
goLeft (Node l x r, crumbs) = Just (l, WentLeft x r : crumbs)
goLeft (Leaf, _) = Nothing

goRight :: TreeZip a -> Maybe (TreeZip a)
goRight (Node l x r, crumbs) = Just (r, WentRight l x : crumbs)
goRight (Leaf, _) = Nothing

goUp :: TreeZip a -> Maybe (TreeZip a)
goUp (_, []) = Nothing
goUp (t, WentLeft x r : crumbs) = Just (Node t x r, crumbs)
goUp (t, WentRight l x : crumbs) = Just (Node l x t, crumbs)

top :: TreeZip a -> Tree a
top (t, []) = t
top z = case goUp z of
  Nothing -> fst z
  Just z' -> top z'

attach :: Tree a -> TreeZip a -> TreeZip a
attach t (_, crumbs) = (t, crumbs)

-- | Follows a way, left where it says so, until it ends or leads out of the tree.
walk :: [Bool] -> TreeZip a -> Maybe (TreeZip a)
walk [] z = Just z
walk (left : rest) z = case (if left then goLeft z else goRight z) of
  Nothing -> Nothing
  Just z' -> walk rest z'

leftmost :: TreeZip a -> TreeZip a
leftmost z = case goLeft z of
  Nothing -> z
  Just z' -> leftmost z'

replaceAt :: [Bool] -> Tree a -> Tree a -> Tree a
replaceAt way new tree = case walk way (tree, []) of
  Nothing -> tree
  Just z -> top (attach new z)

mapTree :: (a -> b) -> Tree a -> Tree b
mapTree _ Leaf = Leaf
mapTree f (Node l x r) = Node (mapTree f l) (f x) (mapTree f r)

toList :: Tree a -> [a]
toList Leaf = []
toList (Node l x r) = toList l ++ [x] ++ toList r

-- >>> maybe [] (leave . modify (+ 1) . toEnd) (enter [1, 2, 3 :: Nat])
-- [1,2,4]
-- >>> maybe [] (leave . insertHere 9) (enter [1, 2 :: Nat])
-- [9,1,2]
-- >>> replaceAt [True] (Node Leaf 5 Leaf) (Node (Node Leaf 1 Leaf) 2 (Leaf :: Tree Nat))
-- Node (Node Leaf 5 Leaf) 2 Leaf
-- >>> toList (top (leftmost (Node (Node Leaf 1 Leaf) (2 :: Nat) Leaf, [])))
-- [1,2]
-- >>> walk [False] (Node Leaf True Leaf, [])
-- Just (Leaf,[WentRight Leaf True])
-- >>> mapTree (* 2) (Node Leaf (3 :: Nat) Leaf)
-- Node Leaf 6 Leaf
-- >>> enter [True, False]
-- Just (ListZip [] True [False])
-- >>> maybe 9 (position . toEnd) (enter [True, False])
-- 1
