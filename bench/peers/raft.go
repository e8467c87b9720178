// raft COUNT: commands chosen a second by three nodes of etcd/raft with its in-memory storage and no network: each is proposed once the one before it
// was applied by all three. It is built in Debian's way, against golang-etcd-server-dev, with GO111MODULE=off and GOPATH=/usr/share/gocode.
package main

import (
	"fmt"
	"io/ioutil"
	"log"
	"os"
	"strconv"
	"time"

	"go.etcd.io/etcd/raft"
	"go.etcd.io/etcd/raft/raftpb"
)

type node struct {
	raw     *raft.RawNode
	storage *raft.MemoryStorage
	applied int
}

func main() {
	count, _ := strconv.Atoi(os.Args[1])
	nodes := map[uint64]*node{}
	peers := []raft.Peer{{ID: 1}, {ID: 2}, {ID: 3}}
	for id := uint64(1); id <= 3; id++ {
		storage := raft.NewMemoryStorage()
		raw, err := raft.NewRawNode(&raft.Config{ID: id, ElectionTick: 10, HeartbeatTick: 1, Storage: storage, MaxSizePerMsg: 1 << 20, MaxInflightMsgs: 256,
			Logger: &raft.DefaultLogger{Logger: log.New(ioutil.Discard, "", 0)}})
		if err != nil {
			panic(err)
		}
		if err := raw.Bootstrap(peers); err != nil {
			panic(err)
		}
		nodes[id] = &node{raw: raw, storage: storage}
	}
	// carry hands each node what the others send, until nobody has anything to do
	carry := func() {
		for busy := true; busy; {
			busy = false
			for id := uint64(1); id <= 3; id++ {
				one := nodes[id]
				if !one.raw.HasReady() {
					continue
				}
				busy = true
				ready := one.raw.Ready()
				if !raft.IsEmptyHardState(ready.HardState) {
					one.storage.SetHardState(ready.HardState)
				}
				one.storage.Append(ready.Entries)
				for _, message := range ready.Messages {
					nodes[message.To].raw.Step(message)
				}
				for _, entry := range ready.CommittedEntries {
					if entry.Type == raftpb.EntryConfChange {
						var change raftpb.ConfChange
						change.Unmarshal(entry.Data)
						one.raw.ApplyConfChange(change)
					} else if len(entry.Data) > 0 {
						one.applied++
					}
				}
				one.raw.Advance(ready)
			}
		}
	}
	carry()
	nodes[1].raw.Campaign()
	carry()
	command := make([]byte, 17)
	begun := time.Now()
	for number := 1; number <= count; number++ {
		if err := nodes[1].raw.Propose(command); err != nil {
			panic(err)
		}
		carry()
		if nodes[2].applied != number {
			// a follower learns of the choice with the next message of the leader
			nodes[1].raw.Tick()
			carry()
		}
	}
	taken := time.Since(begun)
	fmt.Printf("etcd/raft: %d commands, three nodes in memory, %.0f a second\n", count, float64(count)/taken.Seconds())
}
