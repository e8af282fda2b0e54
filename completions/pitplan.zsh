#compdef pitplan
# Completion of pitplan for zsh. Written by tools/man_page.py from the help texts: change those, not this file.
_pitplan() {
    local -a commands
    commands=(
        'init:Look at a table of blocks, and write a study.toml for it'
        'check:Say what is wrong with a study, all of it at once, and what looks wrong'
        'build:Read the table, work out what each block brings and costs, and make the slopes'
        'slopes:Show the angles that are asked for and those that are built, by bearing and region, and draw them'
        'shells:Find the proved pit at each factor, and the tables'
        'plot:Draw the pit-by-pit graph, a plan and a section'
        'page:Write one HTML file with pits in three dimensions, sections, plans and tables'
        'phases:Cut the mine into pushbacks'
        'schedule:Plan by years'
        'export:Write the pits for CAD (dxf), ParaView (vtu), GIS (gpkg) and any other program (csv), in true coordinates'
        'compare:Put a designed pit beside the proved best one'
        'risk:Find the proved pit of each realisation of the grades, and how likely each block is'
        'vary:Find the proved pit with one thing changed at a time, and which of them moves the worth most, and the npv'
        'report:Write a report'
        'submit:Hand in what isn'\''t done yet of shells, realisations and what-ifs'
        'status:Show what is done, running, waiting and failed, and how long the rest will take'
        'task:Find the pits of one task, for clusters'
        'bundle:All that the numbers rest on, with scripts that check it again'
        'schema:Print a JSON Schema of study.toml, by which an editor completes its keys and marks what is wrong'
        'desk:Serve the same commands and the same study.toml as a page in the browser, over a folder of tables and studies'
        'doctor:Look whether all that pitplan needs is here, and take a small mine through it'
    )
    if (( CURRENT == 2 )); then
        [[ $words[2] == -* ]] && _arguments -S '--version[Print the version]' '--no-wait[End where another command has the study, and don'\''t wait for it]' '--within[Read and write nothing outside this folder]:within:_files' '--install-completion[Install completion for the specified shell]:install-completion:(bash zsh fish powershell pwsh)' '--show-completion[Show completion for the specified shell, to copy it or customize the installation]:show-completion:(bash zsh fish powershell pwsh)' '-h[Show this message and exit]' '--help[Show this message and exit]' || _describe -t commands command commands
        return
    fi
    local command=$words[2]
    shift words
    (( CURRENT-- ))
    case $command in
        init) _arguments '--study[The folder of the new study]:study:_files' \
            '-c[What a column is, as x=este, where its name isn'\''t a usual one]:column:(id x y z dx dy dz tonnes density rock class topography ore)' '--column[What a column is, as x=este, where its name isn'\''t a usual one]:column:(id x y z dx dy dz tonnes density rock class topography ore)' \
            '--encoding[Of the table where it isn'\''t UTF-8, as cp1252]:encoding: ' \
            '--force[Write over a study.toml that is there]' \
            '-h[Show this message and exit]' '--help[Show this message and exit]' '*:file:_files' ;;
        check) _arguments '--watch[Do it again whenever study.toml or the table is saved, until stopped]' \
            '-h[Show this message and exit]' '--help[Show this message and exit]' '*:file:_files' ;;
        build) _arguments '-h[Show this message and exit]' '--help[Show this message and exit]' '*:file:_files' ;;
        slopes) _arguments '--every[Degrees of bearing between two lines of the table]:every: ' \
            '-h[Show this message and exit]' '--help[Show this message and exit]' '*:file:_files' ;;
        shells) _arguments '--workers[Pits at a time]:workers: ' \
            '--certificates[Find each pit by itself, with a certificate that pit check accepts]' \
            '-h[Show this message and exit]' '--help[Show this message and exit]' '*:file:_files' ;;
        plot) _arguments '--bench[Plan of the bench at this elevation]:bench: ' \
            '--north[Section at this northing, of a model that isn'\''t turned]:north: ' \
            '--east[Section at this easting, likewise]:east: ' \
            '--row[Section along this row of the model (its x axis), counted from 0]:row: ' \
            '--column[Section along this column of the model (its y axis), counted from 0]:column: ' \
            '--colour[What colours the blocks]:colour: ' \
            '--pit[The factor of the pit that is outlined]:pit: ' \
            '--exaggerate[Draw heights so many times longer, in sections]:exaggerate: ' \
            '-h[Show this message and exit]' '--help[Show this message and exit]' '*:file:_files' ;;
        page) _arguments '--phases[Show pushbacks too]:phases: ' \
            '--design[Show a designed pit beside the best one too]:design:_files' \
            '--layer[With --design]:layer: ' \
            '--column[In place of --design]:column: ' \
            '--value[With --column]:value: ' \
            '--factor[The pit that the design is compared with, by its factor of the price]:factor: ' \
            '--schedule[Show the mine at the end of each year too, as `schedule` found it last]' \
            '--title[The heading]:title: ' \
            '-h[Show this message and exit]' '--help[Show this message and exit]' '*:file:_files' ;;
        phases) _arguments '--mining-width[The least width that machines need, in the unit of the coordinates]:mining-width: ' \
            '--widen[Make each pushback this wide, in the unit of the coordinates, by blocks of the next pit that it takes in, or that it leaves for it]:widen: ' \
            '-h[Show this message and exit]' '--help[Show this message and exit]' '*:file:_files' ;;
        schedule) _arguments '--gap[End within so many percent of the bound]:gap: ' \
            '--minutes[End the search after so many minutes, once it has a schedule and a first bound]:minutes: ' \
            '--mining-width[The least width that machines need, in the unit of the coordinates]:mining-width: ' \
            '-h[Show this message and exit]' '--help[Show this message and exit]' '*:file:_files' ;;
        export) _arguments '--to[Any of dxf, vtu, csv, gpkg, minelib, with commas]:to: ' \
            '--factors[The pits to export, as 0.5,0.75,1.0]:factors: ' \
            '--phases[Export pushbacks in place of pits]:phases: ' \
            '--schedule[Export the mine at the end of each year in place of pits, as `schedule` found it last]' \
            '--columns[Columns of the table for vtu and csv, with commas]:columns: ' \
            '--whole[All blocks of the model in vtu and csv]' \
            '--cut-corners[Draw staircases in dxf as straight lines]' \
            '--crs[The coordinate system for gpkg, as EPSG\:32719]:crs: ' \
            '-h[Show this message and exit]' '--help[Show this message and exit]' '*:file:_files' ;;
        compare) _arguments '--ids[A table or a text with the ids of the design'\''s blocks]:ids:_files' \
            '--column[The column of the study'\''s table that says which rows the design takes]:column: ' \
            '--value[With --column]:value: ' \
            '--surface[A DXF with faces, or a CSV of points x, y, z]:surface:_files' \
            '--layer[With --surface]:layer: ' \
            '--factor[The pit to compare with, by its factor of the price]:factor: ' \
            '--bench[Draw the plan of the bench at this elevation]:bench: ' \
            '-h[Show this message and exit]' '--help[Show this message and exit]' '*:file:_files' ;;
        risk) _arguments '--realisations[An .npy (realisations x rows of the table), or a CSV with a column for each]:realisations:_files' \
            '--factors[Shares of the price, as 0.8,1,1.2]:factors: ' \
            '--metal[Whose grades these are]:metal: ' \
            '--schedule[What the schedule that `schedule` found last is worth under each realisation, beside a bound of the schedules of that realisation, in place of pits]' \
            '--gap[With --schedule]:gap: ' \
            '--minutes[With --schedule]:minutes: ' \
            '--later[Look through the realisations and find no pit yet]' \
            '--workers[Realisations at a time]:workers: ' \
            '-h[Show this message and exit]' '--help[Show this message and exit]' '*:file:_files' ;;
        vary) _arguments '--factor[Share of the price]:factor: ' \
            '--schedule[A plan by years for each change, beside a bound of its own, in place of a pit]' \
            '--gap[With --schedule]:gap: ' \
            '--minutes[With --schedule]:minutes: ' \
            '--later[Build what is needed and find no pit yet]' \
            '--workers[Pits at a time]:workers: ' \
            '-h[Show this message and exit]' '--help[Show this message and exit]' '*:file:_files' ;;
        report) _arguments '--pdf[As PDF, to read and to print]' \
            '--xlsx[As a workbook, with a sheet for each table and its numbers as numbers]' \
            '--phases[Tell of pushbacks too]:phases: ' \
            '--title[Of the cover]:title: ' \
            '-h[Show this message and exit]' '--help[Show this message and exit]' '*:file:_files' ;;
        submit) _arguments '--engine[local]:engine:(local slurm snakemake)' \
            '--dry[Show what would be handed in, and hand in nothing]' \
            '--workers[Of engine local]:workers: ' \
            '--minutes[That a task may take, for the scheduler]:minutes: ' \
            '--at-once[Tasks of an array that may run at a time]:at-once: ' \
            '--again[Hand in too what seems to run on other machines, as where one of them died]' \
            '-h[Show this message and exit]' '--help[Show this message and exit]' '*:file:_files' ;;
        status) _arguments '-h[Show this message and exit]' '--help[Show this message and exit]' '*:file:_files' ;;
        task) _arguments '-h[Show this message and exit]' '--help[Show this message and exit]' '*:file:_files' ;;
        bundle) _arguments '-h[Show this message and exit]' '--help[Show this message and exit]' '*:file:_files' ;;
        schema) _arguments '-h[Show this message and exit]' '--help[Show this message and exit]' ;;
        desk) _arguments '--port[Where it listens]:port: ' \
            '--host[The address that it listens at]:host: ' \
            '--name[A further address by which browsers call it, as https\://desk.mine.example behind a proxy]:name:_files' \
            '--upload-limit[Bytes of a table that is dropped, at most]:upload-limit: ' \
            '-h[Show this message and exit]' '--help[Show this message and exit]' '*:file:_files' ;;
        doctor) _arguments '-h[Show this message and exit]' '--help[Show this message and exit]' ;;
    esac
}
_pitplan "$@"
