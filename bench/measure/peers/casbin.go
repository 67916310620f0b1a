// Times Enforce of Casbin in this process. It reads the roles of a session and the declared pairs ("g"), the grants ("p") and what is asked
// ("a"), a line of comma-separated words each, and prints a line for each lap: the nanoseconds of one check, and then what was answered.
package main

import (
	"bufio"
	"fmt"
	"os"
	"strconv"
	"strings"
	"time"

	"github.com/casbin/casbin"
	"github.com/casbin/casbin/model"
)

// Casbin's model of RBAC with the comparisons first, since its own order asks for the roles of each policy line.
const rules = `
[request_definition]
r = sub, obj, act
[policy_definition]
p = sub, obj, act
[role_definition]
g = _, _
[policy_effect]
e = some(where (p.eft == allow))
[matchers]
m = r.obj == p.obj && r.act == p.act && g(r.sub, p.sub)
`

type enforcer interface {
	Enforce(words ...interface{}) (bool, error)
	AddPolicies(lines [][]string) (bool, error)
	AddGroupingPolicies(lines [][]string) (bool, error)
}

func stop(fault error) {
	if fault != nil {
		fmt.Fprintln(os.Stderr, "casbin:", fault)
		os.Exit(1)
	}
}

func read() map[string][][]string {
	lines := map[string][][]string{}
	for input := bufio.NewScanner(os.Stdin); input.Scan(); {
		words := strings.Split(input.Text(), ",")
		lines[words[0]] = append(lines[words[0]], words[1:])
	}
	return lines
}

func main() {
	kind := os.Args[1]
	laps, fault := strconv.Atoi(os.Args[2])
	stop(fault)
	read, form := read(), model.NewModel()
	stop(form.LoadModelFromText(rules))
	var asker enforcer
	if kind == "cached" {
		asker, fault = casbin.NewCachedEnforcer(form)
	} else {
		asker, fault = casbin.NewEnforcer(form)
	}
	stop(fault)
	_, fault = asker.AddPolicies(read["p"])
	stop(fault)
	_, fault = asker.AddGroupingPolicies(read["g"])
	stop(fault)
	answers := make([]byte, len(read["a"]))
	for lap := 0; lap < laps; lap++ {
		begun := time.Now()
		for at, asked := range read["a"] {
			granted, fault := asker.Enforce(asked[0], asked[1], asked[2])
			stop(fault)
			answers[at] = 'f'
			if granted {
				answers[at] = 't'
			}
		}
		fmt.Println(float64(time.Since(begun).Nanoseconds())/float64(len(answers)), string(answers))
	}
}
