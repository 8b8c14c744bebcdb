package main

import (
	"encoding/json"
	"fmt"
	"io"
	"strings"
	"text/tabwriter"
)

// What a command has to tell: as a value in JSON, or as a table. The fault is what a check has found.
type answer struct {
	value any
	// The names of the columns, which begin with > where they are of numbers, and the rows.
	columns []string
	rows    [][]any
	// What stands below.
	words string
	fault error
}

func printJSON(out io.Writer, value any) error {
	encoder := json.NewEncoder(out)
	encoder.SetEscapeHTML(false)
	return encoder.Encode(value)
}

// Prints the rows below the names of their columns, texts to the left and numbers to the right.
func (a answer) print(out io.Writer) error {
	if len(a.columns) > 0 {
		if err := a.printTable(out); err != nil {
			return err
		}
	}
	_, err := io.WriteString(out, a.words)
	return err
}

func (a answer) printTable(out io.Writer) error {
	all := [][]string{make([]string, len(a.columns))}
	for column, name := range a.columns {
		all[0][column] = strings.TrimPrefix(name, ">")
	}
	for _, row := range a.rows {
		cells := make([]string, len(row))
		for column, cell := range row {
			cells[column] = fmt.Sprint(cell)
		}
		all = append(all, cells)
	}
	widths := make([]int, len(a.columns))
	for _, row := range all {
		for column, cell := range row {
			if width := len([]rune(cell)); width > widths[column] {
				widths[column] = width
			}
		}
	}
	table := tabwriter.NewWriter(out, 0, 0, 2, ' ', tabwriter.TabIndent)
	for _, row := range all {
		for column, cell := range row {
			if strings.HasPrefix(a.columns[column], ">") {
				cell = strings.Repeat(" ", widths[column]-len([]rune(cell))) + cell
			}
			row[column] = cell
		}
		fmt.Fprintln(table, strings.TrimRight(strings.Join(row, "\t"), "\t"))
	}
	return table.Flush()
}
