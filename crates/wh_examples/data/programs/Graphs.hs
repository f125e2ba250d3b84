-- | Graphs as lists of neighbours: walks, ways, circles, colours and orders.
module Graphs
  ( Graph
  , neighbours
  , nodes
  , edges
  , hasEdge
  , reverseGraph
  , reach
  , connected
  , ways
  , sources
  , topological
  , depthFirst
  , degree
  , independent
  , colour
  , properColouring
  , components
  ) where

import Prelude hiding (length)
import Nat

type Graph = [(Nat, [Nat])]

neighbours :: Graph -> Nat -> [Nat]
neighbours [] _ = []
neighbours ((m, ns) : rest) n
  | m == n = ns
  | otherwise = neighbours rest n

nodes :: Graph -> [Nat]
nodes = map fst

edges :: Graph -> [(Nat, Nat)]
edges = concatMap (\(m, ns) -> map (\n -> (m, n)) ns)

hasEdge :: Graph -> Nat -> Nat -> Bool
hasEdge g m n = n `elem` neighbours g m

reverseGraph :: Graph -> Graph
reverseGraph g = map (\n -> (n, into n)) (nodes g)
  where
    into n = [] ++ filter (\m -> hasEdge g m n) (nodes g)

-- | What can be reached from some nodes. In each round a node is left behind or becomes known, so that there are no
-- more rounds than nodes and edges.
reach :: Graph -> [Nat] -> [Nat]
reach g start = go (length (nodes g) + length (edges g) + length start) start []
  where
    go 0 _ seen = seen
    go _ [] seen = reverse seen
    go (Succ fuel) (n : todo) seen
      | n `elem` seen = go fuel todo seen
      | otherwise = go fuel (neighbours g n ++ todo) (n : seen)

connected :: Graph -> Nat -> Nat -> Bool
connected g m n = n `elem` reach g [m]

-- | The ways from one node to another with at most so many edges.
ways :: Nat -> Graph -> Nat -> Nat -> [[Nat]]
ways _ _ from to
  | from == to = [[to]]
ways 0 _ _ _ = []
ways (Succ k) g from to = map (from :) (concatMap (\n -> ways k g n to) (neighbours g from))

-- | The nodes to which no edge leads.
sources :: Graph -> [Nat]
sources g = filter (\n -> all (\m -> not (hasEdge g m n)) (nodes g)) (nodes g)

removeNode :: Nat -> Graph -> Graph
removeNode n = map (\(m, ns) -> (m, filter (/= n) ns)) . filter (\(m, _) -> m /= n)

-- | An order in which each edge leads on, if there is one.
topological :: Graph -> Maybe [Nat]
topological graph = go (nodes graph) graph
  where
    go [] [] = Just []
    go [] _ = Nothing
    go (_ : fuel) g = case sources g of
      [] -> if null g then Just [] else Nothing
      (n : _) -> case go fuel (removeNode n g) of
        Nothing -> Nothing
        Just order -> Just (n : order)

-- | The nodes in the order in which a walk leaves them; what is known is handed on.
depthFirst :: Graph -> Nat -> [Nat]
depthFirst g n = visit (length (nodes g)) n []
  where
    visit fuel m seen
      | m `elem` seen = seen
      | otherwise = case fuel of
          Zero -> seen
          Succ fuel' -> foldr (visit fuel') (m : seen) (neighbours g m)

degree :: Graph -> Nat -> Nat
degree g n = length (neighbours g n)

independent :: Graph -> [Nat] -> Bool
independent _ [] = True
independent g (n : ns) = all (\m -> not (hasEdge g n m || hasEdge g m n)) ns && independent g ns

-- | Gives each node the least colour that no neighbour has.
colour :: Graph -> [(Nat, Nat)]
colour g = foldr paint [] (nodes g)
  where
    paint n done = (n, free (map snd (filter (\(m, _) -> hasEdge g n m || hasEdge g m n) done))) : done
    free used = go (length used) 0
      where
        go 0 c = c
        go (Succ fuel) c
          | c `elem` used = go fuel (c + 1)
          | otherwise = c

properColouring :: Graph -> [(Nat, Nat)] -> Bool
properColouring g cs = all (\(m, n) -> shade m /= shade n) (edges g)
  where
    shade n = find cs
      where
        find [] = 0
        find ((m, c) : rest) = if m == n then c else find rest

components :: Graph -> [[Nat]]
components g = go (nodes g) []
  where
    go [] _ = []
    go (n : ns) seen
      | n `elem` seen = go ns seen
      | otherwise = let here = reach g [n] in here : go ns (here ++ seen)

-- >>> reach [(0, [1]), (1, [2]), (2, [0]), (3, [])] [0]
-- [0,1,2]
-- >>> topological [(0, [1, 2]), (1, [2]), (2, [])]
-- Just [0,1,2]
-- >>> topological [(0, [1]), (1, [0])]
-- Nothing
-- >>> ways 3 [(0, [1, 2]), (1, [2]), (2, [])] 0 2
-- [[0,1,2],[0,2]]
-- >>> sources [(0, [1]), (1, []), (2, [1])]
-- [0,2]
-- >>> connected [(0, [1]), (1, [])] 1 0
-- False
-- >>> colour [(0, [1]), (1, [2]), (2, [0])]
-- [(0,2),(1,1),(2,0)]
-- >>> independent [(0, [1]), (1, []), (2, [])] [0, 2]
-- True
-- >>> reverseGraph [(0, [1]), (1, [])]
-- [(0,[]),(1,[0])]
-- >>> depthFirst [(0, [1, 2]), (1, [2]), (2, [])] 0
-- [1,2,0]
-- >>> components [(0, [1]), (1, [0]), (2, [])]
-- [[0,1],[2]]
