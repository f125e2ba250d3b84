-- | Sets as red-black trees: no red node below a red one, and equally many black nodes on each way down.
module RedBlack
  ( Color (..)
  , Set (..)
  , empty
  , member
  , insert
  , balance
  , fromList
  , toList
  , size
  , depth
  , blackHeight
  , isRed
  , noRedRed
  , union
  , subset
  ) where

import Nat

data Color = Red | Black
  deriving (Eq, Show)

data Set a = Empty | Node Color (Set a) a (Set a)
  deriving (Eq, Show)

empty :: Set a
empty = Empty

member :: Ord a => a -> Set a -> Bool
member _ Empty = False
member x (Node _ l y r) = case compare x y of
  LT -> member x l
  EQ -> True
  GT -> member x r

-- | Turns the four shapes with a red node below a red one into one without.
balance :: Color -> Set a -> a -> Set a -> Set a
balance Black (Node Red (Node Red a x b) y c) z d = Node Red (Node Black a x b) y (Node Black c z d)
balance Black (Node Red a x (Node Red b y c)) z d = Node Red (Node Black a x b) y (Node Black c z d)
balance Black a x (Node Red (Node Red b y c) z d) = Node Red (Node Black a x b) y (Node Black c z d)
balance Black a x (Node Red b y (Node Red c z d)) = Node Red (Node Black a x b) y (Node Black c z d)
balance color l x r = Node color l x r

insert :: Ord a => a -> Set a -> Set a
insert x set = blacken (go set)
  where
    go Empty = Node Red Empty x Empty
    go tree@(Node color l y r)
      | x < y = balance color (go l) y r
      | x > y = balance color l y (go r)
      | otherwise = tree
    blacken (Node _ l y r) = Node Black l y r
    blacken Empty = Empty

fromList :: Ord a => [a] -> Set a
fromList = foldr insert Empty

toList :: Set a -> [a]
toList tree = walk tree []
  where
    walk Empty rest = rest
    walk (Node _ l x r) rest = walk l (x : walk r rest)

size :: Set a -> Nat
size Empty = 0
size (Node _ l _ r) = size l + 1 + size r

depth :: Set a -> Nat
depth Empty = 0
depth (Node _ l _ r) = 1 + max (depth l) (depth r)

-- | How many black nodes stand on each way down, if on each there are equally many.
blackHeight :: Set a -> Maybe Nat
blackHeight Empty = Just 0
blackHeight (Node color l _ r) = case (blackHeight l, blackHeight r) of
  (Just m, Just n) | m == n -> Just (if color == Black then m + 1 else m)
  _ -> Nothing

isRed :: Set a -> Bool
isRed (Node Red _ _ _) = True
isRed _ = False

noRedRed :: Set a -> Bool
noRedRed Empty = True
noRedRed (Node color l _ r) = here && noRedRed l && noRedRed r
  where
    here = color == Black || not (isRed l || isRed r)

union :: Ord a => Set a -> Set a -> Set a
union a b = foldr insert b (toList a)

subset :: Ord a => Set a -> Set a -> Bool
subset a b = all (\x -> member x b) (toList a)

-- >>> toList (fromList [3, 1, 2, 5, 4 :: Nat])
-- [1,2,3,4,5]
-- >>> member 3 (fromList [1, 2, 3 :: Nat])
-- True
-- >>> member 7 (fromList [1, 2, 3 :: Nat])
-- False
-- >>> fromList [1, 2, 3 :: Nat]
-- Node Black (Node Black Empty 1 Empty) 2 (Node Black Empty 3 Empty)
-- >>> depth (fromList [1, 2, 3, 4, 5, 6, 7 :: Nat])
-- 3
-- >>> blackHeight (fromList [1, 2, 3, 4 :: Nat])
-- Just 2
-- >>> noRedRed (fromList [4, 3, 2, 1 :: Nat])
-- True
-- >>> toList (union (fromList [1, 3]) (fromList [2, 3 :: Nat]))
-- [1,2,3]
-- >>> subset (fromList [True]) (fromList [True, False])
-- True
