-- | Queues as two lists, and what is done with them: breadth-first walks, turns, buffers of a bounded length.
module Queues
  ( Queue (..)
  , emptyQueue
  , isEmpty
  , push
  , pop
  , peek
  , toList
  , fromList
  , size
  , mapQueue
  , pushAll
  , Tree (..)
  , breadth
  , levels
  , josephus
  , Buffer (..)
  , put
  , latest
  , roundRobin
  ) where

import Prelude hiding (length, take, drop)
import Nat

-- | The front, and what is behind it in reverse.
data Queue a = Queue [a] [a]
  deriving (Show)

emptyQueue :: Queue a
emptyQueue = Queue [] []

isEmpty :: Queue a -> Bool
isEmpty (Queue [] []) = True
isEmpty _ = False

push :: a -> Queue a -> Queue a
push x (Queue front back) = Queue front (x : back)

pop :: Queue a -> Maybe (a, Queue a)
pop (Queue [] []) = Nothing
pop (Queue (x : front) back) = Just (x, Queue front back)
pop (Queue [] back) = pop (Queue (reverse back) [])

peek :: Queue a -> Maybe a
peek q = case pop q of
  Nothing -> Nothing
  Just (x, _) -> Just x

toList :: Queue a -> [a]
toList (Queue front back) = front ++ reverse back

fromList :: [a] -> Queue a
fromList xs = Queue xs []

size :: Queue a -> Nat
size (Queue front back) = length front + length back

mapQueue :: (a -> b) -> Queue a -> Queue b
mapQueue f (Queue front back) = Queue (map f front) (map f back)

pushAll :: [a] -> Queue a -> Queue a
pushAll xs q = foldl (flip push) q xs

data Tree a = Tip | Bin (Tree a) a (Tree a)
  deriving (Eq, Show)

-- | The members of a tree, level by level.
breadth :: Tree a -> [a]
breadth t = go (fromList [t])
  where
    go q = case pop q of
      Nothing -> []
      Just (Tip, rest) -> go rest
      Just (Bin l x r, rest) -> x : go (push r (push l rest))

-- | The levels as lists.
levels :: Tree a -> [[a]]
levels Tip = []
levels (Bin l x r) = [x] : together (levels l) (levels r)
  where
    together [] yss = yss
    together xss [] = xss
    together (xs : xss) (ys : yss) = (xs ++ ys) : together xss yss

-- | Each time so many are passed over, and the next one leaves; the order in which they leave.
josephus :: Nat -> [a] -> [a]
josephus k list = rounds (length list) (fromList list)
  where
    rounds 0 _ = []
    rounds n q = case pop (skip k q) of
      Nothing -> []
      Just (x, rest) -> x : rounds (n - 1) rest
    skip 0 q = q
    skip n q = case pop q of
      Nothing -> q
      Just (x, rest) -> skip (n - 1) (push x rest)

-- | At most so many members; the oldest one goes where there is no room.
data Buffer a = Buffer Nat [a]
  deriving (Eq, Show)

put :: a -> Buffer a -> Buffer a
put x (Buffer room xs)
  | length xs < room = Buffer room (xs ++ [x])
  | otherwise = Buffer room (drop 1 xs ++ [x])

latest :: Nat -> Buffer a -> [a]
latest n (Buffer _ xs) = take n (reverse xs)

-- | One member of each list by turns, until all are empty.
roundRobin :: [[a]] -> [a]
roundRobin lists = case heads lists of
  ([], _) -> []
  (xs, rest) -> xs ++ roundRobin rest
  where
    heads [] = ([], [])
    heads ([] : rest) = heads rest
    heads ((x : xs) : rest) = case heads rest of
      (ys, yss) -> (x : ys, xs : yss)

-- >>> toList (push 3 (push 2 (fromList [1 :: Nat])))
-- [1,2,3]
-- >>> peek (push True emptyQueue)
-- Just True
-- >>> size (pushAll [1, 2, 3] (emptyQueue :: Queue Nat))
-- 3
-- >>> breadth (Bin (Bin Tip 2 Tip) 1 (Bin Tip (3 :: Nat) (Bin Tip 4 Tip)))
-- [1,2,3,4]
-- >>> levels (Bin (Bin Tip 2 Tip) 1 (Bin Tip (3 :: Nat) (Bin Tip 4 Tip)))
-- [[1],[2,3],[4]]
-- >>> josephus 2 [1, 2, 3, 4, 5 :: Nat]
-- [3,1,5,2,4]
-- >>> put 4 (Buffer 2 [1, 2 :: Nat])
-- Buffer 2 [2,4]
-- >>> roundRobin [[1, 2, 3], [4], [5, 6 :: Nat]]
-- [1,4,5,2,6,3]
-- >>> isEmpty (emptyQueue :: Queue Bool)
-- True
