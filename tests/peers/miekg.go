// miekg/dns: `UnpackRR`, which reads a record of a message.
// Reads lines `TYPE PLACE LENGTH OCTETS`; run.py has the protocol.
package main

import (
	"bufio"
	"encoding/hex"
	"fmt"
	"os"
	"strconv"
	"strings"

	"github.com/miekg/dns"
)

func answer(words []string) string {
	place, _ := strconv.Atoi(words[1])
	octets, _ := hex.DecodeString(words[3])
	record, _, err := dns.UnpackRR(octets, place-11)
	if err != nil {
		return "rejected\t" + err.Error()
	}
	room := make([]byte, 70000)
	end, err := dns.PackRR(record, room, 0, nil, false)
	if err != nil {
		return "accepted\t!" + err.Error()
	}
	if end <= 11 {
		return "accepted\t-"
	}
	return "accepted\t" + hex.EncodeToString(room[11:end])
}

func main() {
	in := bufio.NewScanner(os.Stdin)
	in.Buffer(make([]byte, 0, 200000), 200000)
	for in.Scan() {
		if words := strings.Fields(in.Text()); len(words) == 4 {
			fmt.Println(answer(words))
		}
	}
}
