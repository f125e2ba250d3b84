-- | Maps as balanced trees: the depths of the two parts of a node differ by one at most.
module AvlTree
  ( Avl (..)
  , emptyMap
  , height
  , node
  , balance
  , insertWith
  , insert
  , find
  , delete
  , takeMin
  , fromList
  , keys
  , values
  , mapValues
  , foldKeys
  , size
  , isBalanced
  , isOrdered
  , range
  , merge
  ) where

import Nat

data Avl k v = Nil | Node Nat (Avl k v) k v (Avl k v)
  deriving (Eq, Show)

emptyMap :: Avl k v
emptyMap = Nil

height :: Avl k v -> Nat
height Nil = 0
height (Node h _ _ _ _) = h

node :: Avl k v -> k -> v -> Avl k v -> Avl k v
node l k v r = Node (1 + max (height l) (height r)) l k v r

-- | A node of two parts whose depths differ by two at most.
balance :: Avl k v -> k -> v -> Avl k v -> Avl k v
balance l k v r
  | height l > height r + 1 = turnRight l k v r
  | height r > height l + 1 = turnLeft l k v r
  | otherwise = node l k v r

turnRight :: Avl k v -> k -> v -> Avl k v -> Avl k v
turnRight (Node _ a ka va b) k v r
  | height a >= height b = node a ka va (node b k v r)
  | Node _ c kb vb d <- b = node (node a ka va c) kb vb (node d k v r)
turnRight l k v r = node l k v r

turnLeft :: Avl k v -> k -> v -> Avl k v -> Avl k v
turnLeft l k v (Node _ a ka va b)
  | height b >= height a = node (node l k v a) ka va b
  | Node _ c kb vb d <- a = node (node l k v c) kb vb (node d ka va b)
turnLeft l k v r = node l k v r

insertWith :: Ord k => (v -> v -> v) -> k -> v -> Avl k v -> Avl k v
insertWith f key val = go
  where
    go Nil = node Nil key val Nil
    go (Node h l k v r) = case compare key k of
      LT -> balance (go l) k v r
      GT -> balance l k v (go r)
      EQ -> Node h l k (f val v) r

insert :: Ord k => k -> v -> Avl k v -> Avl k v
insert = insertWith const

find :: Ord k => k -> Avl k v -> Maybe v
find _ Nil = Nothing
find key (Node _ l k v r)
  | key < k = find key l
  | key > k = find key r
  | otherwise = Just v

-- | The least key with its value, and the tree without it.
takeMin :: Avl k v -> Maybe (k, v, Avl k v)
takeMin Nil = Nothing
takeMin (Node _ l k v r) = case takeMin l of
  Nothing -> Just (k, v, r)
  Just (k', v', l') -> Just (k', v', balance l' k v r)

delete :: Ord k => k -> Avl k v -> Avl k v
delete _ Nil = Nil
delete key (Node _ l k v r) = case compare key k of
  LT -> balance (delete key l) k v r
  GT -> balance l k v (delete key r)
  EQ -> case takeMin r of
    Nothing -> l
    Just (k', v', r') -> balance l k' v' r'

fromList :: Ord k => [(k, v)] -> Avl k v
fromList = foldr (\(k, v) t -> insert k v t) Nil

foldKeys :: (k -> v -> b -> b) -> b -> Avl k v -> b
foldKeys _ z Nil = z
foldKeys f z (Node _ l k v r) = foldKeys f (f k v (foldKeys f z r)) l

keys :: Avl k v -> [k]
keys = foldKeys (\k _ ks -> k : ks) []

values :: Avl k v -> [v]
values = foldKeys (\_ v vs -> v : vs) []

mapValues :: (v -> w) -> Avl k v -> Avl k w
mapValues _ Nil = Nil
mapValues f (Node h l k v r) = Node h (mapValues f l) k (f v) (mapValues f r)

size :: Avl k v -> Nat
size = foldKeys (\_ _ n -> n + 1) 0

isBalanced :: Avl k v -> Bool
isBalanced Nil = True
isBalanced (Node _ l _ _ r) = near (height l) (height r) && isBalanced l && isBalanced r
  where
    near m n = m <= n + 1 && n <= m + 1

isOrdered :: Ord k => Avl k v -> Bool
isOrdered t = rising (keys t)
  where
    rising (a : rest@(b : _)) = a < b && rising rest
    rising _ = True

-- | The values whose keys lie between two bounds, these included.
range :: Ord k => k -> k -> Avl k v -> [v]
range low high = go
  where
    go Nil = []
    go (Node _ l k v r)
      | k < low = go r
      | k > high = go l
      | otherwise = go l ++ [v] ++ go r

merge :: Ord k => (v -> v -> v) -> Avl k v -> Avl k v -> Avl k v
merge f a b = foldKeys (insertWith f) b a

-- >>> keys (fromList [(3, True), (1, False), (2 :: Nat, True)])
-- [1,2,3]
-- >>> find 2 (fromList [(1, 5), (2 :: Nat, 6 :: Nat)])
-- Just 6
-- >>> height (fromList [(1, 1), (2, 1), (3, 1), (4 :: Nat, 1 :: Nat)])
-- 3
-- >>> keys (delete 2 (fromList [(1, True), (2, True), (3 :: Nat, True)]))
-- [1,3]
-- >>> isBalanced (fromList [(1, 1), (2, 1), (3, 1), (4 :: Nat, 1 :: Nat)])
-- True
-- >>> range 2 3 (fromList [(1, 7), (2, 8), (3 :: Nat, 9 :: Nat)])
-- [8,9]
-- >>> merge (+) (fromList [(1 :: Nat, 2)]) (fromList [(1, 3 :: Nat)])
-- Node 1 Nil 1 5 Nil
-- >>> size (mapValues not (fromList [(True, True), (False, False)]))
-- 2
