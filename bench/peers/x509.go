// x509 ROOT.der CA.der LEAF.der MOMENT COUNT: times Certificate.Verify of Go's crypto/x509 on a chain of three, and the checks of its signatures alone.
// The certificates are read once. Prints the microseconds of a verdict, and of the two signatures under it.
package main

import (
	"crypto/x509"
	"fmt"
	"os"
	"strconv"
	"time"
)

func load(path string) *x509.Certificate {
	octets, err := os.ReadFile(path)
	if err != nil {
		panic(err)
	}
	cert, err := x509.ParseCertificate(octets)
	if err != nil {
		panic(err)
	}
	return cert
}

func main() {
	root, ca, leaf := load(os.Args[1]), load(os.Args[2]), load(os.Args[3])
	moment, _ := strconv.ParseInt(os.Args[4], 10, 64)
	rounds, _ := strconv.Atoi(os.Args[5])
	roots, between := x509.NewCertPool(), x509.NewCertPool()
	roots.AddCert(root)
	between.AddCert(ca)
	options := x509.VerifyOptions{Roots: roots, Intermediates: between, CurrentTime: time.Unix(moment, 0), KeyUsages: []x509.ExtKeyUsage{x509.ExtKeyUsageServerAuth}}
	begun := time.Now()
	for round := 0; round < rounds; round++ {
		if _, err := leaf.Verify(options); err != nil {
			panic(err)
		}
	}
	verdicts := time.Since(begun)
	begun = time.Now()
	for round := 0; round < rounds; round++ {
		if ca.CheckSignatureFrom(root) != nil || leaf.CheckSignatureFrom(ca) != nil {
			panic("a signature")
		}
	}
	signatures := time.Since(begun)
	micros := func(d time.Duration) float64 { return float64(d.Nanoseconds()) / 1000 / float64(rounds) }
	fmt.Printf("crypto/x509: a verdict %.1f us, of these the two signatures %.1f\n", micros(verdicts), micros(signatures))
}
