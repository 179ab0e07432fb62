// miekg/dns. `miekg wire` reads lines `TYPE PLACE LENGTH OCTETS` and calls `UnpackRR`; `miekg print` calls `String`, too; `miekg text`
// reads lines of a type's number, a tab and zone text, and calls a `ZoneParser` with the origin example.com; `miekg show` reads messages
// in hexadecimal digits and prints the records of each, one a line, and an empty line. peers.py has the protocol.
package main

import (
	"bufio"
	"encoding/hex"
	"fmt"
	"os"
	"strconv"
	"strings"

	"github.com/miekg/dns"
)

func octets(record dns.RR) string {
	room := make([]byte, 70000)
	owner := record.Header()
	owner.Name = "."
	end, err := dns.PackRR(record, room, 0, nil, false)
	if err != nil {
		return "rejected\t" + strings.ReplaceAll(err.Error(), "\n", " ")
	}
	if end <= 11 {
		return "accepted\t-"
	}
	return "accepted\t" + hex.EncodeToString(room[11:end])
}

func printed(line string) string {
	words := strings.Fields(line)
	kind, _ := strconv.Atoi(words[0])
	if _, known := dns.TypeToRR[uint16(kind)]; !known {
		return "unknown\t-"
	}
	place, _ := strconv.Atoi(words[1])
	message, _ := hex.DecodeString(words[3])
	record, _, err := dns.UnpackRR(message, place-11)
	if err != nil {
		return "rejected\t" + err.Error()
	}
	parts := strings.SplitN(record.String(), "\t", 5)
	return "accepted\t" + parts[len(parts)-1]
}

func wire(line string) string {
	words := strings.Fields(line)
	place, _ := strconv.Atoi(words[1])
	message, _ := hex.DecodeString(words[3])
	record, _, err := dns.UnpackRR(message, place-11)
	if err != nil {
		return "rejected\t" + err.Error()
	}
	return octets(record)
}

func text(line string) string {
	number, data, _ := strings.Cut(line, "\t")
	kind, _ := strconv.Atoi(number)
	if _, known := dns.TypeToRR[uint16(kind)]; !known {
		return "unknown\t-"
	}
	parser := dns.NewZoneParser(strings.NewReader("a.example.com. 3600 IN "+dns.TypeToString[uint16(kind)]+" "+data+"\n"), "example.com.", "")
	record, found := parser.Next()
	if err := parser.Err(); err != nil {
		return "rejected\t" + strings.ReplaceAll(err.Error(), "\n", " ")
	}
	if !found {
		return "rejected\tno record"
	}
	return octets(record)
}

func show(line string) string {
	message, _ := hex.DecodeString(line)
	read := new(dns.Msg)
	if err := read.Unpack(message); err != nil {
		return "rejected\t" + err.Error() + "\n"
	}
	out := ""
	for _, section := range [][]dns.RR{read.Answer, read.Ns, read.Extra} {
		for _, record := range section {
			out += record.String() + "\n"
		}
	}
	return out
}

func main() {
	mode := map[string]func(string) string{"wire": wire, "text": text, "show": show, "print": printed}[os.Args[1]]
	in := bufio.NewScanner(os.Stdin)
	in.Buffer(make([]byte, 0, 200000), 200000)
	for in.Scan() {
		fmt.Println(mode(in.Text()))
	}
}
