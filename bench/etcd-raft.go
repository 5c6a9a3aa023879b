// Three servers of etcd's raft in one process: what a proposal costs in nomadsim is measured beside
// it (bench/README.md). `bench/beside-etcd` builds it, and runs it as `etcd-raft PROPOSALS BEAT`:
// so many proposals, BEAT of them in one message to the leader, each time until no message is left.
//
// Of etcd it has RawNode and MemoryStorage. Each message is marshalled, stands in one list, and is
// unmarshalled. A command has 40 bytes, a job's name and a filling; 200 jobs are put in turn. The
// machine is two maps: jobs by name, and evaluations by the index of their entry.
//
// It lacks what nomadsim does besides: nothing is read from a file, no command is weighed before it
// is appended, its fields are not read, no desk follows the state, no message and no event is kept,
// and the state has no fork. It does more in one thing: a leader tells at once what is committed,
// by two messages and their answers; nomadsim tells with the next beat.
package main

import (
	"encoding/binary"
	"fmt"
	"io/ioutil"
	"log"
	"os"
	"strconv"

	"go.etcd.io/etcd/raft"
	"go.etcd.io/etcd/raft/raftpb"
)

const (
	servers     = 3
	jobs        = 200
	commandSize = 40
)

type server struct {
	node        *raft.RawNode
	storage     *raft.MemoryStorage
	jobs        map[string][]byte
	evaluations map[uint64]string
}

type group struct {
	servers [servers]*server
	wire    [][]byte
}

func check(err error) {
	if err != nil {
		log.Fatal(err)
	}
}

func newServer(id uint64) *server {
	storage := raft.NewMemoryStorage()
	members := raftpb.ConfState{Voters: []uint64{1, 2, 3}}
	first := raftpb.SnapshotMetadata{ConfState: members, Index: 1, Term: 1}
	check(storage.ApplySnapshot(raftpb.Snapshot{Metadata: first}))
	node, err := raft.NewRawNode(&raft.Config{
		ID:              id,
		ElectionTick:    10,
		HeartbeatTick:   1,
		Storage:         storage,
		Applied:         1,
		MaxSizePerMsg:   1 << 20,
		MaxInflightMsgs: 256,
		Logger:          &raft.DefaultLogger{Logger: log.New(ioutil.Discard, "", 0)},
	})
	check(err)
	return &server{node, storage, make(map[string][]byte), make(map[uint64]string)}
}

func (s *server) apply(entry raftpb.Entry) {
	if entry.Type == raftpb.EntryNormal && len(entry.Data) == commandSize {
		name := string(entry.Data[:8])
		s.jobs[name] = entry.Data[8:]
		s.evaluations[entry.Index] = name
	}
}

// ready stores, sends and applies what a server has to, and tells whether that was anything.
func (g *group) ready(s *server) bool {
	if !s.node.HasReady() {
		return false
	}
	todo := s.node.Ready()
	if !raft.IsEmptyHardState(todo.HardState) {
		check(s.storage.SetHardState(todo.HardState))
	}
	check(s.storage.Append(todo.Entries))
	for i := range todo.Messages {
		bytes, err := todo.Messages[i].Marshal()
		check(err)
		g.wire = append(g.wire, bytes)
	}
	for _, entry := range todo.CommittedEntries {
		s.apply(entry)
	}
	s.node.Advance(todo)
	return true
}

func (g *group) deliver() {
	sent := g.wire
	g.wire = nil
	for _, bytes := range sent {
		var message raftpb.Message
		check(message.Unmarshal(bytes))
		check(g.servers[message.To-1].node.Step(message))
	}
}

// flow goes on until no server has anything to do, and no message is left.
func (g *group) flow() {
	for isBusy := true; isBusy; {
		isBusy = false
		for _, s := range g.servers {
			isBusy = g.ready(s) || isBusy
		}
		g.deliver()
	}
}

func command(number int) []byte {
	data := make([]byte, commandSize)
	copy(data, fmt.Sprintf("job-%04d", number%jobs))
	binary.BigEndian.PutUint64(data[8:], uint64(number))
	return data
}

// propose hands the leader commands, in one message.
func (g *group) propose(first, count int) {
	message := raftpb.Message{Type: raftpb.MsgProp, From: 1, To: 1}
	for i := first; i < first+count; i++ {
		message.Entries = append(message.Entries, raftpb.Entry{Data: command(i)})
	}
	check(g.servers[0].node.Step(message))
	g.flow()
}

func number(word string) int {
	value, err := strconv.Atoi(word)
	check(err)
	return value
}

func main() {
	if len(os.Args) != 3 {
		log.Fatal("usage: etcd-raft PROPOSALS BEAT")
	}
	proposals, beat := number(os.Args[1]), number(os.Args[2])
	g := &group{}
	for i := range g.servers {
		g.servers[i] = newServer(uint64(i + 1))
	}
	check(g.servers[0].node.Campaign())
	g.flow()
	for at := 0; at < proposals; at += beat {
		count := beat
		if proposals-at < beat {
			count = proposals - at
		}
		g.propose(at, count)
	}
	for i, s := range g.servers {
		fmt.Printf("server %d jobs %d evaluations %d\n", i+1, len(s.jobs), len(s.evaluations))
	}
}
