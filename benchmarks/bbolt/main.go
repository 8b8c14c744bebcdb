// Makes and removes records in a file of bbolt: each change is a transaction, and is on the disk when it is answered.
// Those of several callers share transactions where they come together (DB.Batch).
//
//	main PATH CALLERS CHANGES    prints the seconds that CHANGES changes took
package main

import (
	"fmt"
	"log"
	"os"
	"strconv"
	"sync"
	"time"

	bolt "go.etcd.io/bbolt"
)

var snapshots = []byte("snapshots")

// The change with this number: every second one removes what the one before has made.
func change(tx *bolt.Tx, caller, number int) error {
	bucket, key := tx.Bucket(snapshots), []byte(fmt.Sprintf("k%d-%d", caller, number/2))
	if number%2 == 1 {
		return bucket.Delete(key)
	}
	return bucket.Put(key, []byte(`{"id":1,"kind":"Active","labels":{},"parent":""}`))
}

func call(db *bolt.DB, callers, caller, changes int) {
	for number := 0; number < changes; number++ {
		work := func(tx *bolt.Tx) error { return change(tx, caller, number) }
		one := db.Update
		if callers > 1 {
			one = db.Batch
		}
		if err := one(work); err != nil {
			log.Fatal(err)
		}
	}
}

func opened(path string) *bolt.DB {
	db, err := bolt.Open(path, 0o600, nil)
	if err != nil {
		log.Fatal(err)
	}
	return db
}

func number(word string) int {
	it, err := strconv.Atoi(word)
	if err != nil {
		log.Fatal(err)
	}
	return it
}

func main() {
	db := opened(os.Args[1])
	if err := db.Update(func(tx *bolt.Tx) error { _, err := tx.CreateBucketIfNotExists(snapshots); return err }); err != nil {
		log.Fatal(err)
	}
	callers, changes := number(os.Args[2]), number(os.Args[3])
	// A batch begins at once where all callers wait.
	db.MaxBatchSize = callers
	began := time.Now()
	var all sync.WaitGroup
	for caller := 0; caller < callers; caller++ {
		all.Add(1)
		go func(caller int) {
			defer all.Done()
			call(db, callers, caller, changes/callers)
		}(caller)
	}
	all.Wait()
	fmt.Println(time.Since(began).Seconds())
}
